//! Settings in words: every value, what is wrong with one and where, and settings that are written and read back.

use leg_sheet::{Alignment, Marks, Priority, Settings, Sides, Word};

fn read(text: &str) -> Settings {
    Settings::from_words(text).expect("settings in words")
}

/// The line, the column and the words of a fault.
fn fault(text: &str) -> (usize, usize, String) {
    let fault = Settings::from_words(text).expect_err("a fault");
    (fault.line, fault.column, fault.words)
}

const fn sides(left: u8, right: u8, top: u8, bottom: u8) -> Sides {
    Sides {
        left,
        right,
        top,
        bottom,
    }
}

#[test]
fn the_defaults() {
    for text in ["", "\n# nothing\n\n   # at all", "\u{20}\t\r\n"] {
        assert_eq!(read(text), Settings::default());
    }
    assert_eq!(
        Settings::default().words(),
        "margin 0 0 0 0           # left right top bottom, 0 to 16, or one number for all\n\
         margin-fill '    '       # left right top bottom, or one character for all\n\
         lines yes                # yes, no\n\
         marks '--||-|+++++++++'  # fifteen characters, or ascii, figure\n\
         padding 1 1 0 0          # left right top bottom, 0 to 16, or one number for all\n\
         padding-fill '    '      # left right top bottom, or one character for all\n\
         align left               # left, center, right\n\
         align-lines together     # together, each\n\
         vertical top             # top, center, bottom\n\
         spare-width last         # first, last, all\n\
         spare-height all         # first, last, all\n"
    );
}

#[test]
fn each_word() {
    let margin = read("margin 8 0 1 16").margin();
    assert_eq!(margin, sides(8, 0, 1, 16));
    assert_eq!(read("margin 8,0,1,16").margin(), margin);
    assert_eq!(
        read("\tmargin   8, 0,\t1 16  # for the punch\r").margin(),
        margin
    );
    assert_eq!(read("padding 2").padding(), Sides::all(2));
    let fills = sides(b'a', b' ', b'#', b'\'');
    assert_eq!(read("margin-fill 'a #''").margin_fills(), fills);
    assert_eq!(read("padding-fill 'a #'' # pilot's").fills(), fills);
    assert_eq!(read("padding-fill .").fills(), Sides::all(b'.'));
    assert_eq!(read("padding-fill '#'#").fills(), Sides::all(b'#'));
    assert_eq!(read("padding-fill '''").fills(), Sides::all(b'\''));
    assert_eq!(
        read("padding-fill ^v<>").fills(),
        sides(b'^', b'v', b'<', b'>')
    );
    assert_eq!(
        read("padding-fill a#b#").fills(),
        sides(b'a', b'#', b'b', b'#')
    );
    assert_eq!(read("marks ascii").marks(), Settings::default().marks());
    let figure = Marks::All(*b"-_()hv123456789");
    assert_eq!(read("marks figure").marks(), figure);
    assert_eq!(read("marks -_()hv123456789").marks(), figure);
    assert_eq!(read("marks '-_()hv123456789'").marks(), figure);
    assert_eq!(read("lines no").marks(), Marks::None);
    assert_eq!(read("lines yes\nmarks figure").marks(), figure);
    assert_eq!(read("align center").horizontal(), Alignment::Center);
    assert_eq!(read("align right").horizontal(), Alignment::End);
    assert_eq!(read("vertical bottom").vertical(), Alignment::End);
    assert!(read("align-lines each").line_mode());
    assert!(!read("align-lines together").line_mode());
    assert_eq!(read("spare-width first").width_priority(), Priority::First);
    assert_eq!(read("spare-width all").width_priority(), Priority::List);
    assert_eq!(read("spare-height last").height_priority(), Priority::Last);
}

/// Words that are named replace those of others, which stay.
#[test]
fn words_over_settings() {
    let bare = read("lines no\npadding 3");
    assert_eq!(
        bare.with_words("align right"),
        Ok(read("lines no\npadding 3\nalign right"))
    );
    assert_eq!(bare.with_words("lines yes"), Ok(read("padding 3")));
    assert_eq!(
        bare.with_words("marks figure"),
        Ok(read("marks figure\npadding 3"))
    );
    let figure = read("marks figure");
    assert_eq!(figure.with_words("lines yes"), Ok(figure));
    assert_eq!(figure.with_words("lines no"), Ok(read("lines no")));
    let named = Settings::default().with_named([("padding", "3"), ("lines", "no")]);
    assert_eq!(named, Ok(bare));
    let spaces = Settings::default().with_named([("padding-fill", "    ")]);
    assert_eq!(spaces, Ok(Settings::default()));
}

#[test]
fn faults_have_their_place() {
    let said = |text: &str, line: usize, column: usize, words: &str| {
        assert_eq!(fault(text), (line, column, words.into()), "{text:?}");
    };
    said("margin 17 0 1 0", 1, 8, "margin: 17 is over 16");
    said(
        "# a\n\n  padding 1 1 0 256 # b",
        3,
        17,
        "padding: 256 is over 16",
    );
    said(
        "padding 99999999999999999999",
        1,
        9,
        "padding: 99999999999999999999 is over 16",
    );
    said("margin 1, -1", 1, 11, "margin: '-1' is no number");
    said("margin 1 +1", 1, 10, "margin: '+1' is no number");
    let four = "margin: four numbers, left right top bottom, or one";
    said("margin 1 2", 1, 8, four);
    said("margin 1 2 3 4 5", 1, 8, four);
    said(
        "margin",
        1,
        7,
        "margin: no value: left right top bottom, 0 to 16, or one number for all",
    );
    said("align # left", 1, 7, "align: no value: left, center, right");
    said(
        "align middle",
        1,
        7,
        "align: 'middle' is none of left, center, right",
    );
    said(
        "align Left",
        1,
        7,
        "align: 'Left' is none of left, center, right",
    );
    said(
        "align left right",
        1,
        7,
        "align: 'left right' is none of left, center, right",
    );
    said("lines maybe", 1, 7, "lines: 'maybe' is none of yes, no");
    said(
        "marks abc",
        1,
        7,
        "marks: fifteen characters, and these are 3",
    );
    said(
        "marks 'abc'",
        1,
        7,
        "marks: 15 characters between quote marks",
    );
    said(
        "padding-fill ab",
        1,
        14,
        "padding-fill: four characters, left right top bottom, or one",
    );
    said(
        "padding-fill '  '",
        1,
        14,
        "padding-fill: 4 or 1 characters between quote marks",
    );
    said(
        "padding-fill '    ",
        1,
        14,
        "padding-fill: 4 or 1 characters between quote marks",
    );
    said(
        "padding-fill 'a\u{E9}bc'",
        1,
        16,
        "padding-fill: 'é' (U+00E9) cannot be printed",
    );
    said(
        "padding-fill 'a\tbc'",
        1,
        16,
        "padding-fill: '\\t' (U+0009) cannot be printed",
    );
    said(
        "marks 'aaaaaaaaaaaaaa\0'",
        1,
        22,
        "marks: '\\0' (U+0000) cannot be printed",
    );
    said("align left\nalign left", 2, 1, "align: given twice");
    let no_marks = "without lines there are no marks";
    said(
        "marks figure\nlines no",
        2,
        7,
        &format!("lines: {no_marks}"),
    );
    said(
        "lines no\nmarks figure",
        2,
        7,
        &format!("marks: {no_marks}"),
    );
    let names: Vec<&str> = Word::all().iter().map(Word::name).collect();
    let unknown = format!("no setting is called 'Margin': {}", names.join(", "));
    said(" Margin 1", 1, 2, &unknown);

    let named = |values: &[(&'static str, &'static str)]| {
        let fault = Settings::default().with_named(values.iter().copied());
        fault.expect_err("a fault").to_string()
    };
    assert_eq!(named(&[("margin", "1,17")]), "margin: 17 is over 16");
    assert_eq!(
        named(&[("margin", "1"), ("margin", "1")]),
        "margin: given twice"
    );
    assert_eq!(
        named(&[("marks", "")]),
        "marks: no value: fifteen characters, or ascii, figure"
    );
    assert!(named(&[("none", "1")]).starts_with("no setting is called 'none': margin, "));
    let text = Settings::from_words("align left\nvertical x").expect_err("a fault");
    assert_eq!(
        text.to_string(),
        "line 2, column 10: vertical: 'x' is none of top, center, bottom"
    );
}

/// Numbers that look random, one after another.
fn next(seed: &mut u64) -> usize {
    *seed = seed.wrapping_mul(6_364_136_223_846_793_005).wrapping_add(1);
    (*seed >> 33) as usize
}

/// A record that the reader accepts: each byte anywhere in its range, often at an end of it.
fn record(seed: &mut u64) -> Vec<u8> {
    let mut byte = |least: u8, greatest: u8| match next(seed) % 4 {
        0 => least,
        1 => greatest,
        number => least + ((next(seed) + number) % usize::from(greatest - least + 1)) as u8,
    };
    let mut bytes = vec![0x10, 0, 28];
    let is_bare = byte(0, 3) == 0;
    bytes.extend((0..15).map(|_| if is_bare { 0 } else { byte(b' ', b'~') }));
    bytes.extend((0..4).map(|_| byte(0, 16)));
    bytes.extend((0..4).map(|_| byte(b' ', b'~')));
    bytes.extend([2, 2, 1, 2, 2].map(|greatest| byte(0, greatest)));
    if byte(0, 1) == 1 {
        bytes.extend([0x11, 0, 8]);
        bytes.extend((0..4).map(|_| byte(0, 16)));
        bytes.extend((0..4).map(|_| byte(b' ', b'~')));
    }
    bytes
}

/// 10,000 records, shown in words and read back: over the default settings and over others, since all of them are named.
#[test]
fn records_come_back() {
    let other = read("margin 3\nmargin-fill x\nmarks figure\nspare-width first\nalign-lines each");
    let (mut seed, mut with_margin, mut bare) = (40, 0, 0);
    for _ in 0..10_000 {
        let bytes = record(&mut seed);
        let settings = Settings::from_bytes(&bytes).expect("settings");
        let words = settings.words();
        assert_eq!(Settings::from_words(&words), Ok(settings), "{words}");
        assert_eq!(other.with_words(&words), Ok(settings), "{words}");
        let back = read(&words).to_bytes();
        if bytes.len() == 31 || settings.to_bytes().len() == 42 {
            assert_eq!(back, bytes, "{words}");
        }
        with_margin += usize::from(back.len() == 42);
        bare += usize::from(settings.marks() == Marks::None);
    }
    assert!(with_margin > 3000 && bare > 1000, "{with_margin} {bare}");
}

//! The page of `legs view`, without a browser: its data checked against the calls, each place looked up alone; nothing from outside; texts that look like HTML. `view/check` opens it in a browser.

mod held;
mod json;
mod papers;
mod random;
mod sheets;
mod texts;

use std::io::Write;
use std::process::{Command, Output, Stdio};

use held::between;
use leg_sheet::{Settings, Tree};

const FOLDER: &str = concat!(env!("CARGO_MANIFEST_DIR"), "/../examples");

/// Runs a program in the folder of the examples, with this on standard input.
fn run(program: &str, words: &[&str], input: &[u8]) -> Output {
    let mut child = Command::new(program)
        .args(words)
        .current_dir(FOLDER)
        .stdin(Stdio::piped())
        .stdout(Stdio::piped())
        .stderr(Stdio::piped())
        .spawn()
        .expect("it starts");
    // One that does not read its standard input may have closed it.
    let _ = child.stdin.take().expect("a pipe").write_all(input);
    child.wait_with_output().expect("it ends")
}

/// The page that `legs view` writes.
fn view(words: &[&str], input: &[u8]) -> String {
    let words = [&["view"], words].concat();
    let output = run(env!("CARGO_BIN_EXE_legs"), &words, input);
    let message = String::from_utf8_lossy(&output.stderr).into_owned();
    assert_eq!((message.as_str(), output.status.code()), ("", Some(0)));
    String::from_utf8(output.stdout).expect("text")
}

/// Its message and status where there is no page.
fn fails(words: &[&str], input: &[u8], message: &str, status: i32) {
    let words = [&["view"], words].concat();
    let output = run(env!("CARGO_BIN_EXE_legs"), &words, input);
    let said = String::from_utf8(output.stderr).expect("text");
    assert_eq!(said, format!("legs: {message}\n"));
    assert_eq!(
        (output.stdout.len(), output.status.code()),
        (0, Some(status))
    );
}

/// The bytes of settings and a tree.
fn bytes(settings: &Settings, tree: &Tree) -> Vec<u8> {
    [settings.to_bytes(), tree.to_bytes().expect("a tree")].concat()
}

/// A number over every tenth column, as far as there is room, and a digit over each.
#[test]
fn rulers() {
    for columns in [5, 9, 10, 11, 12, 13, 99, 100, 101, 102, 103, 104, 399, 400] {
        let page = view(&["-"], "x".repeat(columns - 4).as_bytes());
        let ruler = between(
            &page,
            "<pre class=\"ruler\" id=\"over\" aria-hidden=\"true\">",
            "</pre>",
        );
        let (tens, digits) = ruler.split_once('\n').expect("two lines");
        assert_eq!((tens.len(), digits.len()), (columns, columns));
        for column in 0..columns {
            assert_eq!(digits[column..=column], (column % 10).to_string());
        }
        for column in (0..columns).step_by(10) {
            let number = column.to_string();
            let room = columns - column;
            let shown = tens[column..].split(' ').next();
            assert_eq!(
                shown,
                Some(if number.len() > room { "" } else { &number }),
                "{columns}"
            );
        }
        assert_eq!(
            between(
                &page,
                "<pre class=\"ruler\" id=\"along\" aria-hidden=\"true\">",
                "</pre>"
            ),
            "0\n1\n2"
        );
    }
}

/// Paper that is wider than high where the letters can be larger so.
#[test]
fn paper() {
    let paper = |list: &str| {
        let page = view(&["-"], list.as_bytes());
        between(&page, "@page { size: A4 ", ";").to_string()
    };
    assert_eq!(paper("short"), "portrait");
    assert_eq!(paper(&"x".repeat(74)), "portrait");
    assert_eq!(paper(&"x".repeat(396)), "landscape");
    assert_eq!(paper(&("x".repeat(200) + &"\\nx".repeat(150))), "portrait");
}

/// How the message begins, and the status, where there is no page.
fn refuses(words: &[&str], beginning: &str, status: i32) {
    let words = [&["view"], words].concat();
    let output = run(env!("CARGO_BIN_EXE_legs"), &words, b"");
    let said = String::from_utf8(output.stderr).expect("text");
    assert!(said.starts_with(&format!("legs: {beginning}: ")), "{said}");
    let answer = (output.stdout.len(), output.status.code());
    assert_eq!(answer, (0, Some(status)));
}

#[test]
fn refusals() {
    refuses(&["refused.legs"], "refused.legs: refused 6", 1);
    let paper = ["key.legs", "--paper", "refused.legs"];
    refuses(&paper, "refused.legs: refused 6", 1);
    refuses(&["key.legs", "--paper", "none.list"], "none.list", 3);
    for words in [&[][..], &["a", "b"], &["a", "--paper"], &["a", "b", "c"]] {
        refuses(words, "usage", 2);
    }
    let once = "usage: standard input is read once: give - once";
    let both = ["-", "--paper", "-"];
    let settings = ["-", "--paper", "key.legs", "--settings", "-"];
    let paper = ["key.legs", "--paper", "-", "--settings", "-"];
    for words in [&both[..], &settings, &paper] {
        let output = run(
            env!("CARGO_BIN_EXE_legs"),
            &[&["view"], words].concat(),
            b"a",
        );
        let said = String::from_utf8(output.stderr).expect("text");
        assert!(said.contains(once), "{said}");
        assert_eq!(output.status.code(), Some(2));
    }
}

#[test]
fn help() {
    let says = |words: &[&str]| {
        let help = run(env!("CARGO_BIN_EXE_legs"), words, b"").stdout;
        String::from_utf8(help).expect("text")
    };
    assert!(says(&["--help"]).contains("\n  legs view FILE "));
    assert!(says(&["help", "view"]).contains("\n    --paper FILE "));
}

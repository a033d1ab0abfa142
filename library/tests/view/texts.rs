//! Texts and names that look like parts of a page; what a page allows itself.

use std::fs;

use leg_sheet::{Input, Settings, Tree};

use crate::held::{between, data, holds, unescaped};
use crate::{bytes, run, view};

/// Texts that would end an element or begin one, a comment or a part of the page, if they were not put there as text.
const HOSTILE: [&str; 9] = [
    "</script><script>document.title = 'broken'</script>",
    "<!--",
    "-->",
    "&amp; &lt; &#60;",
    "</pre></title></style><b onclick=\"x\">",
    "\\u003c \\n \\",
    "{data} {script} {0}",
    "]]> ' \" `",
    "<img src=x onerror=alert(1)>\n<script>",
];

/// The page has its own elements and no others.
fn is_whole(page: &str) {
    for (mark, count) in [
        ("<script", 2),
        ("</script", 2),
        ("<style", 1),
        ("</style", 1),
        ("<pre", 3),
        ("</pre", 3),
        ("<title", 1),
        ("</title", 1),
        ("<!--", 0),
        ("<b>", 0),
        ("<img", 0),
    ] {
        assert_eq!(page.matches(mark).count(), count, "{mark}");
    }
}

#[test]
fn texts_are_texts() {
    let tree = Tree::column(HOSTILE);
    let file = bytes(&Settings::default(), &tree);
    let page = view(&["-"], &file);
    holds(&page, Input::split(&file), "hostile");
    is_whole(&page);
    assert_eq!(
        data(&page)["sheets"].list()[0]["texts"].texts()[1..],
        HOSTILE
    );
}

/// A file's name is shown without its folders, and as text, too.
#[test]
fn names_are_texts() {
    let folder = std::env::temp_dir().join(format!("legs-view-{}", std::process::id()));
    fs::create_dir_all(&folder).expect("a folder");
    for name in ["<!-- &amp; '\".list", "<b>{data}<b>", "\u{1B}[1m\n.list"] {
        let path = folder.join(name);
        fs::write(&path, "row\n  a\n").expect("a file");
        let page = view(&[path.to_str().expect("text")], b"");
        is_whole(&page);
        assert_eq!(data(&page)["sheets"].list()[0]["name"].text(), name);
        assert_eq!(unescaped(between(&page, "<h1 id=\"name\">", "</h1>")), name);
        assert!(!page.contains(folder.to_str().expect("text")));
    }
    fs::remove_dir_all(&folder).expect("the folder goes");
}

/// No page has an address, or what would load or send something.
#[test]
fn nothing_from_outside() {
    let key = ["key.legs", "--paper", "paper.legs"];
    for words in [&["flight.list"][..], &key] {
        let page = view(words, b"").to_lowercase();
        for mark in [
            "://",
            "src=",
            "href",
            "url(",
            "@import",
            "<link",
            "<base",
            "<iframe",
            "<object",
            "<embed",
            "action=",
            "fetch(",
            "import(",
            "xmlhttp",
            "websocket",
            "sendbeacon",
            "innerhtml",
            "outerhtml",
            "insertadjacent",
            "document.write",
            "eval(",
            "unsafe",
            " on",
        ] {
            let found = page
                .match_indices(mark)
                .map(|(at, _)| &page[at..page.len().min(at + 12)]);
            let found: Vec<&str> = found
                .filter(|text| mark != " on" || text.contains('=') && !text.contains(' '))
                .collect();
            assert_eq!(found, Vec::<&str>::new(), "{mark}");
        }
    }
}

/// The policy's source of a text, by other programs than our own.
fn source(text: &str) -> String {
    let hash = run("sha256sum", &[], text.as_bytes()).stdout;
    let digits = std::str::from_utf8(&hash[..64]).expect("digits");
    let byte = |at: usize| u8::from_str_radix(&digits[at..at + 2], 16).expect("a byte");
    let bytes: Vec<u8> = (0..64).step_by(2).map(byte).collect();
    let text = run("base64", &[], &bytes).stdout;
    format!(
        "'sha256-{}'",
        String::from_utf8(text).expect("text").trim_end()
    )
}

/// The policy allows the page's own script and style, and nothing else.
#[test]
fn the_policy_is_the_pages() {
    for name in ["flight.list", "list.list"] {
        let page = view(&[name], b"");
        let policy = unescaped(between(
            &page,
            "http-equiv=\"Content-Security-Policy\" content=\"",
            "\"",
        ));
        let script = source(between(&page, "<script type=\"module\">", "</script>"));
        let style = source(between(&page, "<style>", "</style>"));
        assert_eq!(
            policy,
            format!("default-src 'none'; script-src {script}; style-src {style}; base-uri 'none'; form-action 'none'")
        );
    }
}

//! Texts in a page: as text of HTML, and as strings of JSON inside a script element.

/// Text, or an attribute in quotes.
pub fn html(text: &str) -> String {
    text.chars().map(character).collect()
}

fn character(it: char) -> String {
    match it {
        '&' => "&amp;".into(),
        '<' => "&lt;".into(),
        '>' => "&gt;".into(),
        '"' => "&quot;".into(),
        '\'' => "&#39;".into(),
        _ => it.into(),
    }
}

/// A string of JSON, with its quotes. No `<` is in it, so that nothing in a text ends the script element or begins a comment there.
pub fn json(text: &str) -> String {
    format!("\"{}\"", text.chars().map(inside).collect::<String>())
}

fn inside(it: char) -> String {
    match it {
        '"' => "\\\"".into(),
        '\\' => "\\\\".into(),
        '\n' => "\\n".into(),
        '<' => "\\u003c".into(),
        _ if it.is_control() => format!("\\u{:04x}", u32::from(it)),
        _ => it.into(),
    }
}

#[cfg(test)]
mod tests {
    use super::*;

    #[test]
    fn texts_of_html() {
        let (text, escaped) = (
            "<!-- a & b --> \"&amp;\" '</pre>'\n",
            "&lt;!-- a &amp; b --&gt; &quot;&amp;amp;&quot; &#39;&lt;/pre&gt;&#39;\n",
        );
        assert_eq!(html(text), escaped);
    }

    #[test]
    fn strings_of_json() {
        assert_eq!(json(""), "\"\"");
        assert_eq!(json("</script><!--"), r#""\u003c/script>\u003c!--""#);
        assert_eq!(json("a\n\"b\" \\n &amp;"), r#""a\n\"b\" \\n &amp;""#);
        assert_eq!(json("\u{1B}\r\u{85}é"), r#""\u001b\u000d\u0085é""#);
    }
}

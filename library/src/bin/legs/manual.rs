//! The manual page and bash's completion, made of the table of commands and of what `--help` prints. `./install` calls for them: `legs help --man`, `legs help --bash`.

use std::ffi::OsString;

use crate::commands::{Command, COMMANDS};
use crate::help::{all, of_command};
use crate::options;

/// What these words request; none where they are other words.
pub fn page(words: &[OsString]) -> Option<String> {
    match words {
        [help, page] if help == "help" && page == "--man" => Some(man()),
        [help, page] if help == "help" && page == "--bash" => Some(bash()),
        _ => None,
    }
}

/// How a command's line begins in what `--help` prints.
const COMMAND: &str = "  legs ";
/// How an example's lines begin there.
const EXAMPLE: &str = "    ";
/// How the line about the exit status begins there.
const STATUS: &str = "Exit status: ";

/// The manual page.
fn man() -> String {
    let version = env!("CARGO_PKG_VERSION");
    let help = all();
    let mut lines = help.lines();
    let about = roff(lines.next().unwrap_or_default());
    let mut page = format!(
        ".TH LEGS 1 \"\" \"leg_sheet {version}\"\n\
         .SH NAME\nlegs \\- prints leg sheets, bordered tables of nested rows and columns\n\
         .SH SYNOPSIS\n.B legs\n.I COMMAND\n.RI [ OPERAND .\\|.]\n.br\n.B legs \\-\\-help\n\
         .SH DESCRIPTION\n{about}\n.SH COMMANDS\n"
    );
    page.extend(COMMANDS.iter().map(entry));
    page += ".SH FILES, SETTINGS AND NUMBERS\n";
    page += &paragraphs(lines.filter(|line| !line.starts_with(COMMAND)));
    page + ".SH SEE ALSO\n.BR leg_sheet (3)\n"
}

/// A command's words, what it does, and its options.
fn entry(command: &Command) -> String {
    let (usage, about) = (roff(command.usage().trim_end()), roff(command.about));
    let help = of_command(command);
    let options: String = help
        .lines()
        .skip(2)
        .map(|line| format!("{}\n", roff(line)))
        .collect();
    if options.is_empty() {
        return format!(".TP\n.B {usage}\n{about}\n");
    }
    format!(".TP\n.B {usage}\n{about}\n.RS\n.EX\n{options}.EE\n.RE\n")
}

/// Lines as paragraphs and examples; the exit status has a heading of its own.
fn paragraphs<'a>(lines: impl Iterator<Item = &'a str>) -> String {
    let mut text = String::new();
    let mut is_example = false;
    for line in lines {
        let was_example = std::mem::replace(&mut is_example, line.starts_with(EXAMPLE));
        match (was_example, is_example) {
            (false, true) => text += ".EX\n",
            (true, false) => text += ".EE\n",
            _ => {}
        }
        match line.strip_prefix(STATUS) {
            Some(status) => text += &format!(".SH EXIT STATUS\n{}\n", roff(status)),
            None if line.is_empty() => text += ".PP\n",
            None => text += &format!("{}\n", roff(line)),
        }
    }
    text
}

/// A line of text for the page: roff's own characters are escaped, and none begins a request.
fn roff(line: &str) -> String {
    let mut text = String::new();
    for character in line.chars() {
        match character {
            '\\' => text += "\\e",
            '-' => text += "\\-",
            '\'' => text += "\\(aq",
            '^' => text += "\\(ha",
            '~' => text += "\\(ti",
            '`' => text += "\\(ga",
            other => text.push(other),
        }
    }
    if text.starts_with('.') {
        text.insert_str(0, "\\&");
    }
    text
}

/// Completion for bash: the commands, the second words of those that have one, the options; files everywhere else.
fn bash() -> String {
    let names: Vec<Vec<String>> = COMMANDS.iter().map(name).collect();
    let firsts = unique(names.iter().map(|name| name[0].clone()));
    let seconds: String = firsts.iter().map(|first| second(first, &names)).collect();
    let firsts = firsts.join(" ");
    let options = unique(options::names().into_iter()).join(" ");
    format!(
        r#"# Completion of legs for bash, made by legs help --bash.
_legs() {{
    local words= word=${{COMP_WORDS[COMP_CWORD]}}
    case $COMP_CWORD,${{COMP_WORDS[1]}} in
        1,*) words='{firsts}' ;;
{seconds}    esac
    [[ $word != -* ]] || words='{options}'
    mapfile -t COMPREPLY < <(compgen -W "$words" -- "$word")
}}
complete -o default -F _legs legs
"#
    )
}

/// The words of a command's name: those of its usage in small letters.
fn name(command: &Command) -> Vec<String> {
    let usage = command.usage();
    let words = usage.split(' ').skip(1);
    let is_name = |word: &&str| word.starts_with(|first: char| first.is_ascii_lowercase());
    words.take_while(is_name).map(String::from).collect()
}

/// The case of a command that has further words.
fn second(first: &str, names: &[Vec<String>]) -> String {
    let of_first = names.iter().filter(|name| name[0] == first);
    let seconds = unique(of_first.filter_map(|name| name.get(1).cloned()));
    if seconds.is_empty() {
        return String::new();
    }
    format!("        2,{first}) words='{}' ;;\n", seconds.join(" "))
}

/// The same words, each where it comes first.
fn unique(words: impl Iterator<Item = String>) -> Vec<String> {
    let mut list = Vec::new();
    for word in words {
        if !list.contains(&word) {
            list.push(word);
        }
    }
    list
}

#[cfg(test)]
mod tests {
    use super::*;

    /// Every command and every line of `--help` is in the page.
    #[test]
    fn the_page_has_all_of_help() {
        let page = man();
        for command in COMMANDS {
            assert!(page.contains(&entry(command)), "{}", command.usage());
        }
        for line in all().lines().filter(|line| !line.starts_with(COMMAND)) {
            let line = roff(line.strip_prefix(STATUS).unwrap_or(line));
            assert!(
                page.lines().any(|it| it == line || line.is_empty()),
                "{line}"
            );
        }
    }

    /// No line begins a request by chance, and a backslash is one.
    #[test]
    fn characters_stand_for_themselves() {
        assert_eq!(roff(r".a \n 'b -c"), r"\&.a \en \(aqb \-c");
        assert_eq!(roff("'row"), r"\(aqrow");
        assert_eq!(
            paragraphs("a\n\n    b\n    c\nExit status: 0".lines()),
            "a\n.PP\n.EX\n    b\n    c\n.EE\n.SH EXIT STATUS\n0\n"
        );
    }

    #[test]
    fn other_words_ask_for_no_page() {
        let asked = |words: &[&str]| page(&words.iter().map(OsString::from).collect::<Vec<_>>());
        assert_eq!(asked(&["help", "--man"]), Some(man()));
        assert_eq!(asked(&["help", "--bash"]), Some(bash()));
        for words in [
            &["help"][..],
            &["--man"],
            &["print", "--man"],
            &["help", "--man", "a"],
        ] {
            assert_eq!(asked(words), None);
        }
    }

    /// Each first word once, and the second ones of drafts.
    #[test]
    fn words_are_completed() {
        let script = bash();
        let first = script
            .lines()
            .find(|line| line.contains("1,*)"))
            .expect("a case");
        for command in COMMANDS {
            let name = name(command);
            assert_eq!(
                first
                    .split(['\'', ' '])
                    .filter(|word| *word == name[0])
                    .count(),
                1
            );
        }
        assert!(script.contains("\n        2,draft) words='new save forget return list' ;;\n"));
        assert!(script.contains("--settings") && script.contains("--help"));
    }
}

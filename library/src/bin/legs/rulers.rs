//! A sheet between rulers, which count its lines and columns from 0.

/// The columns between two numbers.
const STEP: usize = 10;

/// The sheet with the numbers of its columns above, and that of each line in front of it.
pub fn between_rulers(sheet: &str) -> String {
    let lines: Vec<&str> = sheet.split('\n').collect();
    let width = lines.iter().map(|line| line.len()).max().unwrap_or(0);
    let front = (lines.len() - 1).to_string().len();
    let tens = (0..width)
        .step_by(STEP)
        .map(|column| format!("{column:<STEP$}"));
    let units = (0..width).map(|column| (column % STEP).to_string());
    let rulers = [tens.collect::<String>(), units.collect()];
    let mut text = String::new();
    for ruler in rulers {
        text += format!("{:front$} {ruler}", "").trim_end();
        text.push('\n');
    }
    for (number, line) in lines.iter().enumerate() {
        text += &format!("{number:>front$} {line}\n");
    }
    text
}

#[cfg(test)]
mod tests {
    use super::*;

    #[test]
    fn numbers_stand_where_they_count() {
        let sheet = vec!["x".repeat(123); 12].join("\n");
        let text = between_rulers(&sheet);
        let lines: Vec<&str> = text.lines().collect();
        assert_eq!(lines.len(), 14);
        assert_eq!(&lines[0][..17], "   0         10  ");
        assert_eq!(lines[0].find("120"), Some(3 + 120));
        assert_eq!(&lines[1][..17], "   01234567890123");
        assert_eq!(lines[1].len(), 3 + 123);
        assert_eq!(&lines[2][..5], " 0 xx");
        assert_eq!(&lines[13][..5], "11 xx");
        assert_eq!(between_rulers(""), "\n\n0 \n");
    }
}

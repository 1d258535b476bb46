//! The rows of a story: a title, and a text that goes on below it.

/// Columns of a line, unless a word is longer, and of the title in front of it.
const WIDTH: usize = 100;
const TITLE: usize = 10;

pub fn row(title: &str, text: &str) -> String {
    wrapped(&format!("  {title:<7}"), text)
}

/// The text behind its title; lines after the first begin below the text of a row.
pub fn wrapped(title: &str, text: &str) -> String {
    let mut story = String::new();
    let mut line = title.to_string();
    for word in text.split(' ') {
        if line.len() + 1 + word.len() > WIDTH {
            story += &line;
            story += "\n";
            line = " ".repeat(TITLE - 1);
        }
        line += " ";
        line += word;
    }
    story + &line + "\n"
}

#[cfg(test)]
mod tests {
    use super::*;

    #[test]
    fn long_texts_go_on_below() {
        let text = "a word ".repeat(30);
        let wrapped = row("title", text.trim_end());
        assert!(wrapped.lines().all(|line| line.len() <= WIDTH));
        assert!(wrapped
            .lines()
            .skip(1)
            .all(|line| line.starts_with("          a") || line.starts_with("          word")));
        assert_eq!(wrapped.split_whitespace().count(), 61);
    }
}

//! Running text in lines that fit a terminal.

/// How wide a line is at most.
const WIDTH: usize = 80;

/// Words behind a beginning, in lines of at most the width; each line but the first begins with so many blanks.
pub fn filled(begin: &str, words: &str, indent: usize) -> String {
    let (mut text, mut column, mut gap) = (begin.to_string(), begin.len(), "");
    for word in words.split_whitespace() {
        if column + gap.len() + word.len() > WIDTH {
            text += &format!("\n{:indent$}", "");
            (column, gap) = (indent, "");
        }
        text += gap;
        text += word;
        column += gap.len() + word.len();
        gap = " ";
    }
    text + "\n"
}

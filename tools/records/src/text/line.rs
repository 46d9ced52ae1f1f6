//! The words of a line.

use crate::numbers::Result;

/// The words up to a comment. A word in quotation marks, or a part of one, may have spaces and #.
pub fn words(line: &str) -> Result<Vec<String>> {
    let mut words = Vec::new();
    let mut word: Option<String> = None;
    let mut quoted = false;
    for letter in line.chars() {
        match letter {
            '"' => {
                quoted = !quoted;
                word.get_or_insert_with(String::new);
            }
            '#' if !quoted => break,
            _ if letter.is_whitespace() && !quoted => words.extend(word.take()),
            _ => word.get_or_insert_with(String::new).push(letter),
        }
    }
    if quoted {
        return Err("a quotation mark without its second; expected another on the line".into());
    }
    words.extend(word);
    Ok(words)
}

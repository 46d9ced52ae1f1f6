//! Where the bytes of a packet or payload come from: digits on the line, or a file.

use std::fs;
use std::path::Path;

use crate::numbers::{bytes_of, is_hex, Result};

/// Digits if every word has hexadecimal digits alone, else the file of that name. A file whose
/// name ends in .hex holds digits, as `records packet` prints them; any other the bytes.
pub fn bytes_from(what: &str, words: &[&str], folder: &Path) -> Result<Vec<u8>> {
    if words.iter().all(|word| is_hex(word)) {
        return bytes_of(what, &words.concat());
    }
    let name = match words {
        &[name] => name,
        _ => {
            let wrong = words.iter().find(|word| !is_hex(word)).unwrap_or(&"");
            return Err(format!(
                "{what} has {wrong:?}; expected hexadecimal digits, or the name of one file"
            ));
        }
    };
    let content = fs::read(folder.join(name)).map_err(|error| {
        format!(
            "{what} is the file {name:?}: {error}; \
             expected a file, or hexadecimal digits without 0x"
        )
    })?;
    if !name.ends_with(".hex") {
        return Ok(content);
    }
    let digits = String::from_utf8_lossy(&content);
    let digits: String = digits.split_whitespace().collect();
    bytes_of(&format!("the file {name:?}"), &digits)
}

//! The text form of records: a line for each. Line N of what `read` prints is record N, as line N
//! of the station's output is.

mod line;
mod parse;
mod print;
mod settings;
pub mod source;

use std::path::Path;

use crate::numbers::Result;
use crate::record::{entries, Entry};

/// The record file of a text. `name` is for errors; packet files stand in `folder`.
pub fn to_records(text: &[u8], name: &str, folder: &Path) -> Result<Vec<u8>> {
    let mut bytes = Vec::new();
    let mut torn_at = None;
    let expected = "lines of records (is this a record file? `records read` reads those)";
    for (place, line) in plain(text, name, expected)?.lines().enumerate() {
        let located = |error: String| format!("{name}:{}: {error}", place + 1);
        let entry = match parse::entry(line, folder).map_err(located)? {
            Some(entry) => entry,
            None => continue,
        };
        if let Some(torn_at) = torn_at {
            return Err(located(format!(
                "a record after the torn one of line {torn_at}; \
                 expected nothing, since only the last record can be torn"
            )));
        }
        if matches!(entry, Entry::Torn(_)) {
            torn_at = Some(place + 1);
        }
        bytes.extend(entry.to_bytes());
    }
    Ok(bytes)
}

/// The content of a file that has to be text; `expected` is for errors. A record file may be UTF-8
/// throughout, but has zero bytes.
pub fn plain<'a>(content: &'a [u8], name: &str, expected: &str) -> Result<&'a str> {
    let no_text = |at: usize| {
        let line = 1 + content[..at].iter().filter(|&&byte| byte == b'\n').count();
        format!("{name}:{line}: bytes that are no text; expected {expected}")
    };
    let text = std::str::from_utf8(content).map_err(|error| no_text(error.valid_up_to()))?;
    match text.find('\0') {
        Some(at) => Err(no_text(at)),
        None => Ok(text),
    }
}

/// The text of a record file.
pub fn from_records(file: &[u8]) -> String {
    let lines = entries(file).into_iter().map(|entry| print::line(&entry));
    lines.map(|line| line + "\n").collect()
}

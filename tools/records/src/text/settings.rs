//! Settings at the end of a line, `name=value`: what a record holds beyond what its kind uses.

use crate::numbers::{bytes_of, number_of, Result};
use crate::record::{Record, ROOM};

/// Those of every record, and those that a kind without such a number on its line may have.
pub const FIRST: &str = "first";
pub const SECOND: &str = "second";
pub const LENGTH: &str = "length";
pub const PACKET: &str = "packet";
/// What stands behind a received packet.
pub const AFTER: &str = "after";
pub const FILLER: &str = "filler";
pub const TAIL: &str = "tail";

/// The words of a line without its settings, and the settings.
pub type Divided<'a> = (Vec<&'a str>, Vec<(&'a str, &'a str)>);

/// Settings stand at the end: a word behind one is an error.
pub fn divide<'a>(words: &[&'a str]) -> Result<Divided<'a>> {
    let is_setting = |word: &&str| {
        let name = word.split('=').next().unwrap_or("");
        word.contains('=') && name.chars().all(|letter| letter.is_ascii_alphabetic())
    };
    let from = words.iter().position(is_setting).unwrap_or(words.len());
    let (plain, settings) = words.split_at(from);
    let pair = |word: &&'a str| {
        word.split_once('=').ok_or_else(|| {
            format!("{word:?} after a setting; expected settings alone (name=value) to the end")
        })
    };
    Ok((
        plain.to_vec(),
        settings.iter().map(pair).collect::<Result<_>>()?,
    ))
}

/// Puts the settings into the record; only the names in `allowed` may stand, each once.
pub fn apply(record: &mut Record, settings: &[(&str, &str)], allowed: &[&str]) -> Result<()> {
    for (place, &(name, value)) in settings.iter().enumerate() {
        if !allowed.contains(&name) {
            let allowed = allowed.join("=, ");
            return Err(format!(
                "the setting {name:?} does not stand here; expected one of {allowed}="
            ));
        }
        if settings[..place].iter().any(|(before, _)| *before == name) {
            return Err(format!("{name}= stands twice; expected it once"));
        }
        set(record, name, value)?;
    }
    Ok(())
}

fn set(record: &mut Record, name: &str, value: &str) -> Result<()> {
    match name {
        FIRST => record.first = number_of(name, value)?,
        SECOND => record.second = number_of(name, value)?,
        LENGTH => record.length = number_of(name, value)?,
        PACKET => put(&mut record.room, &room_bytes(name, value, ROOM)?),
        // The packet's bytes stand before; its length has been set.
        AFTER => {
            let from = (record.length as usize).min(ROOM);
            let bytes = room_bytes(name, value, ROOM - from)?;
            put(&mut record.room[from..], &bytes);
        }
        FILLER => record.filler = exact(name, value)?,
        _ => record.tail = exact(name, value)?,
    }
    Ok(())
}

fn put(room: &mut [u8], bytes: &[u8]) {
    room[..bytes.len()].copy_from_slice(bytes);
}

fn room_bytes(name: &str, value: &str, most: usize) -> Result<Vec<u8>> {
    let bytes = bytes_of(name, value)?;
    let count = bytes.len();
    if count > most {
        return Err(format!("{name} has {count} bytes; expected at most {most}"));
    }
    Ok(bytes)
}

fn exact<const COUNT: usize>(name: &str, value: &str) -> Result<[u8; COUNT]> {
    let bytes = bytes_of(name, value)?;
    let count = bytes.len();
    bytes
        .try_into()
        .map_err(|_| format!("{name} has {count} bytes; expected {COUNT}"))
}

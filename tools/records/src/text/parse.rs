//! From a line to a record.

use std::path::Path;

use super::line::words;
use super::settings::{self, apply, divide};
use super::source::bytes_from;
use crate::make;
use crate::numbers::{number, number_of, number_up_to, Result};
use crate::record::{Entry, Record, READ, RECEIVE, RECORD, ROOM, SEND, TAKE, WRITE};
use crate::registers;

/// What a line asks for; none if it is blank or a comment.
pub fn entry(line: &str, folder: &Path) -> Result<Option<Entry>> {
    let words = words(line)?;
    let words: Vec<&str> = words.iter().map(String::as_str).collect();
    let (verb, rest) = match words.split_first() {
        Some((&verb, rest)) => (verb, rest),
        None => return Ok(None),
    };
    let record = match verb {
        "write" => write(rest)?,
        "read" => read(rest)?,
        "receive" => receive(rest, folder)?,
        "send" => send(rest)?,
        "take" => take(rest)?,
        "kind" => kind(rest)?,
        "torn" => return torn(rest).map(Some),
        _ => {
            return Err(format!(
                "{verb:?}; expected write, read, receive, send, take, kind or torn"
            ))
        }
    };
    Ok(Some(Entry::Whole(Box::new(record))))
}

/// The settings of a kind that has its numbers on the line, but no packet.
const REST: [&str; 4] = [
    settings::LENGTH,
    settings::PACKET,
    settings::FILLER,
    settings::TAIL,
];
const SECOND_AND_REST: [&str; 5] = [settings::SECOND, REST[0], REST[1], REST[2], REST[3]];
const ALL: [&str; 6] = [
    settings::FIRST,
    settings::SECOND,
    REST[0],
    REST[1],
    REST[2],
    REST[3],
];

fn write(words: &[&str]) -> Result<Record> {
    let (plain, settings) = divide(words)?;
    let (register, value) = match plain[..] {
        [register, value] => (register, value),
        _ => return Err(not_so_many("write", &plain, "a register and a value")),
    };
    let mut record = Record::new(
        WRITE,
        register_of(register)?,
        number_of("the value", value)?,
    );
    apply(&mut record, &settings, &REST)?;
    Ok(record)
}

fn read(words: &[&str]) -> Result<Record> {
    let (plain, settings) = divide(words)?;
    let register = match plain[..] {
        [register] => register,
        _ => return Err(not_so_many("read", &plain, "a register")),
    };
    let mut record = Record::new(READ, register_of(register)?, 0);
    apply(&mut record, &settings, &SECOND_AND_REST)?;
    Ok(record)
}

/// "send (first number 1: fabric ready)".
fn send(words: &[&str]) -> Result<Record> {
    let (plain, settings) = divide(words)?;
    let first = match plain[..] {
        ["ready"] => Some(1),
        ["waiting"] => Some(0),
        [other] => number(other),
        _ => None,
    };
    let first = first.ok_or_else(|| {
        not_so_many(
            "send",
            &plain,
            "ready or waiting (the fabric), or the first number",
        )
    })?;
    let mut record = Record::new(SEND, first, 0);
    apply(&mut record, &settings, &SECOND_AND_REST)?;
    Ok(record)
}

fn take(words: &[&str]) -> Result<Record> {
    let (plain, settings) = divide(words)?;
    let list = match plain[..] {
        [list] => list,
        _ => return Err(not_so_many("take", &plain, "a list's number")),
    };
    let mut record = Record::new(TAKE, number_of("the list", list)?, 0);
    apply(&mut record, &settings, &SECOND_AND_REST)?;
    Ok(record)
}

fn kind(words: &[&str]) -> Result<Record> {
    let (plain, settings) = divide(words)?;
    let kind = match plain[..] {
        [kind] => kind,
        _ => return Err(not_so_many("kind", &plain, "a number from 0 to 255")),
    };
    let kind = number_up_to(u8::MAX.into(), "the kind", kind)? as u8;
    let mut record = Record::new(kind, 0, 0);
    apply(&mut record, &settings, &ALL)?;
    Ok(record)
}

fn receive(words: &[&str], folder: &Path) -> Result<Record> {
    let mut record = Record::new(RECEIVE, 0, 0);
    if let ["packet", fields @ ..] = words {
        put_packet(&mut record, &make::packet(fields, folder)?)?;
        return Ok(record);
    }
    let (plain, mut settings) = divide(words)?;
    match plain[..] {
        [] => {
            let expected = "a file, hexadecimal digits, packet and its fields, or nothing";
            return Err(not_so_many("receive", &plain, expected));
        }
        ["nothing"] => {}
        _ => put_packet(&mut record, &bytes_from("the packet", &plain, folder)?)?,
    }
    // after= begins where the packet ends, whatever length= says then.
    settings.sort_by_key(|(name, _)| *name == settings::LENGTH);
    let allowed = [
        settings::FIRST,
        settings::SECOND,
        settings::LENGTH,
        settings::AFTER,
        settings::FILLER,
        settings::TAIL,
    ];
    apply(&mut record, &settings, &allowed)?;
    Ok(record)
}

fn put_packet(record: &mut Record, packet: &[u8]) -> Result<()> {
    let count = packet.len();
    if count > ROOM {
        return Err(format!(
            "the packet has {count} bytes; expected at most {ROOM}, which a record holds \
             (length={count} after a shorter one says that it is longer)"
        ));
    }
    record.room[..count].copy_from_slice(packet);
    record.length = count as u32;
    Ok(())
}

const TORN_MOST: usize = RECORD - 1;

fn torn(words: &[&str]) -> Result<Entry> {
    let bytes = crate::numbers::bytes_of("the torn record", &words.concat())?;
    match bytes.len() {
        1..=TORN_MOST => Ok(Entry::Torn(bytes)),
        count => Err(format!(
            "the torn record has {count} bytes; expected 1 to {TORN_MOST}"
        )),
    }
}

fn register_of(text: &str) -> Result<u32> {
    let known = number(text).or_else(|| registers::named(text));
    known.ok_or_else(|| {
        format!(
            "{text:?} is no register; expected a name like PCSR0, NBQR, receive_word or \
             descriptor0.control1, or a number like 0x01C"
        )
    })
}

fn not_so_many(verb: &str, found: &[&str], expected: &str) -> String {
    let found = match found {
        [] => "nothing".to_string(),
        _ => format!("{:?}", found.join(" ")),
    };
    format!("{verb} with {found}; expected {expected}")
}

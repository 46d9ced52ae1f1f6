//! From a record to its line. `parse::entry` gives every byte back.

use super::settings::{AFTER, FILLER, FIRST, LENGTH, PACKET, SECOND, TAIL};
use crate::numbers::{hex, hex_words};
use crate::record::{Entry, Record, READ, RECEIVE, RECORD, SEND, TAKE, WRITE};
use crate::registers;

pub fn line(entry: &Entry) -> String {
    match entry {
        Entry::Whole(record) => record_line(record),
        Entry::Torn(bytes) => format!(
            "torn {} # the last record is torn: {} of {RECORD} bytes",
            hex_words(bytes),
            bytes.len()
        ),
    }
}

fn record_line(record: &Record) -> String {
    let call = call_words(record);
    let settings = settings(record);
    let ends = ends(record);
    [vec![call], settings, ends].concat().join(" ")
}

/// What the kind uses.
fn call_words(record: &Record) -> String {
    let Record { first, second, .. } = *record;
    match (record.kind, first) {
        (WRITE, _) => format!("write {} 0x{second:08x}", register(first)),
        (READ, _) => format!("read {}", register(first)),
        (RECEIVE, _) => match received(record) {
            [] => "receive nothing".to_string(),
            packet => format!("receive {}", hex_words(packet)),
        },
        (SEND, 0) => "send waiting".to_string(),
        (SEND, 1) => "send ready".to_string(),
        (SEND, _) => format!("send {first:#x}"),
        (TAKE, _) => format!("take {first}"),
        (kind, _) => format!("kind {kind}"),
    }
}

fn register(number: u32) -> String {
    registers::name(number).unwrap_or_else(|| format!("0x{number:03X}"))
}

/// The packet. One with a length above 168 has its length beside it, so that the zeros at its end
/// need not stand.
fn received(record: &Record) -> &[u8] {
    record.packet().unwrap_or(trimmed(&record.room))
}

/// Without the zeros at the end.
fn trimmed(bytes: &[u8]) -> &[u8] {
    let last = bytes.iter().rposition(|&byte| byte != 0);
    &bytes[..last.map_or(0, |last| last + 1)]
}

/// What the kind does not use, where it is not 0.
fn settings(record: &Record) -> Vec<String> {
    let mut settings = Vec::new();
    let mut add = |name: &str, value: u32| {
        if value != 0 {
            settings.push(format!("{name}=0x{value:x}"));
        }
    };
    if !matches!(record.kind, WRITE | READ | SEND | TAKE) {
        add(FIRST, record.first);
    }
    if record.kind != WRITE {
        add(SECOND, record.second);
    }
    let (name, room) = match record.packet() {
        _ if record.kind != RECEIVE => (PACKET, &record.room[..]),
        Some(packet) => (AFTER, &record.room[packet.len()..]),
        None => (AFTER, &[][..]),
    };
    if record.kind != RECEIVE || record.packet().is_none() {
        add(LENGTH, record.length);
    }
    if !trimmed(room).is_empty() {
        settings.push(format!("{name}={}", hex(trimmed(room))));
    }
    settings
}

/// The bytes that "are not checked", where they are not 0.
fn ends(record: &Record) -> Vec<String> {
    let shown = [(FILLER, &record.filler[..]), (TAIL, &record.tail[..])];
    let shown = shown
        .into_iter()
        .filter(|(_, bytes)| bytes.iter().any(|&byte| byte != 0));
    shown
        .map(|(name, bytes)| format!("{name}={}", hex(bytes)))
        .collect()
}

//! Where an answer is not what the calls before it lead to. Two reasons are likely: the lines are
//! those of another file, or the station is wrong.

use crate::call::Call;
use crate::fields::{part, CONTROL1};
use crate::known::{Known, QUEUE_ENTRIES};
use crate::packet::Packet;
use crate::places::Place;
use crate::registers::{decode, Register};
use crate::reply::{Line, Reply};

const NBQR: u32 = 0x01C;

pub fn doubt(call: &Call, line: &Line, known: &Known) -> Option<String> {
    let expected = match call {
        Call::Write { register, value } => doubt_of_write(*register, *value, line, known),
        Call::Read { register } => doubt_of_read(*register, line, known),
        Call::Receive { packet, .. } => {
            doubt_of_receipt(&packet.and_then(Packet::new)?, line, known)
        }
        Call::Send { .. } => doubt_of_sending(line, known),
        Call::Take { list } => doubt_of_taking(*list, line, known),
        _ => None,
    }?;
    Some(format!(
        "the calls before lead to another answer: {expected}"
    ))
}

fn doubt_of_read(register: u32, line: &Line, known: &Known) -> Option<String> {
    let expected = match decode(register)? {
        Register::Pcsr0 => known.pcsr0,
        Register::SlotCount => known.slot_count,
        Register::Pointer(ram) => known.pointer(ram),
        _ => match known.place(register)? {
            Place::Descriptor(number, word) => known.descriptors[number][word],
            Place::Slot(slot, word) => known.slots[slot][word],
            Place::Token(list) => known.tokens[list],
            _ => None,
        },
    }?;
    let differs = line.reply == Reply::Done && line.value != expected;
    differs.then(|| format!("0x{expected:08x}"))
}

fn doubt_of_write(register: u32, value: u32, line: &Line, known: &Known) -> Option<String> {
    if register == NBQR {
        return doubt_of_full(line, known);
    }
    let expected = match known.place(register)? {
        Place::Descriptor(number, 5) => control1_reply(number, value, known)?,
        Place::Head(list) if known.heads[list]? => Reply::ReadOnly,
        _ => return None,
    };
    let differs = line.reply != expected;
    differs.then(|| expected.word().to_string())
}

/// What a write of control1 answers: active before bad-value.
fn control1_reply(descriptor: usize, value: u32, known: &Known) -> Option<Reply> {
    if part(value, CONTROL1, "go") == 0 {
        return Some(Reply::Done);
    }
    if known.is_active(descriptor)? {
        return Some(Reply::Active);
    }
    match known.broken_go_rule(descriptor, value) {
        (broken, true) if broken.is_empty() => Some(Reply::Done),
        (broken, false) if broken.is_empty() => None,
        _ => Some(Reply::BadValue),
    }
}

/// "full: NBQR write or take with 256 waiting".
fn doubt_of_full(line: &Line, known: &Known) -> Option<String> {
    let waiting = known.nbqr?;
    let is_full = waiting == QUEUE_ENTRIES;
    let differs = match line.reply {
        Reply::Done => is_full,
        Reply::Full => !is_full,
        _ => false,
    };
    differs.then(|| format!("{waiting} blocks wait in NBQR"))
}

/// Only where the station went as far as the steps of receipt.
fn doubt_of_receipt(packet: &Packet, line: &Line, known: &Known) -> Option<String> {
    let expected = known.first_failure(packet)?;
    match (line.reply, known.has_room(packet)) {
        (Reply::Stalled, Some(true)) => return Some("what it needs has room".to_string()),
        (Reply::Done | Reply::Fault, Some(false)) => {
            return Some(Reply::Stalled.word().to_string())
        }
        _ => {}
    }
    let given = match line.reply {
        Reply::Done => 0,
        Reply::Fault => line.value,
        _ => return None,
    };
    let differs = given != expected;
    differs.then(|| match expected {
        0 => "no step of receipt fails".to_string(),
        _ => format!("a fault of status 0x{expected:04x}"),
    })
}

fn doubt_of_sending(line: &Line, known: &Known) -> Option<String> {
    let active = known.active()?;
    match line.reply {
        Reply::Quiet if !active.is_empty() => Some(format!("descriptor {} is active", active[0])),
        Reply::Done if active.is_empty() => Some("no descriptor is active".to_string()),
        Reply::Done => {
            let expected = known.next_sent()?.length;
            let differs = line.value != expected;
            differs.then(|| format!("a packet of {expected} bytes"))
        }
        _ => None,
    }
}

fn doubt_of_taking(list: u32, line: &Line, known: &Known) -> Option<String> {
    let notices = known.posted.get(list as usize)?.as_ref()?;
    match (line.reply, notices.front()) {
        (Reply::Done, None) => Some(format!("list {list} has no notice")),
        (Reply::Done, Some(notice)) if notice.word0 != line.value => {
            Some(format!("word 0 is 0x{:08x}", notice.word0))
        }
        (Reply::Empty, Some(_)) => Some(format!("list {list} has a notice")),
        _ => doubt_of_full(line, known),
    }
}

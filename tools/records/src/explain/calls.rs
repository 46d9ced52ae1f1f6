//! What a record asks for.

use super::packets;
use crate::call::Call;
use crate::fields::{in_words, PCSR0, PCSR1};
use crate::known::Known;
use crate::record::RECORD;
use crate::registers::{decode, name, Register};

/// The call in one line.
pub fn head(call: &Call, known: &Known) -> String {
    match call {
        Call::Write { register, value } => {
            format!(
                "write 0x{value:08x} to {}",
                register_in_words(*register, known)
            )
        }
        Call::Read { register } => format!("read {}", register_in_words(*register, known)),
        Call::Receive {
            packet: None,
            length,
        } => {
            format!("receive, with a length of {length}, above 168")
        }
        Call::Receive { length, .. } => format!("receive a packet of {length} bytes"),
        Call::Send { first: 1 } => "send, the fabric is ready".to_string(),
        Call::Send { .. } => "send, the fabric is not ready".to_string(),
        Call::Take { list } => format!("take the oldest notice of list {list}"),
        Call::Unknown { kind } => format!("kind {kind}, which is no call"),
        Call::Torn { bytes } => {
            format!("torn, {bytes} of {RECORD} bytes: it counts as kind 0, which is no call")
        }
    }
}

/// The register's name and number, and the RAM word that it reaches.
pub fn register_in_words(register: u32, known: &Known) -> String {
    let own = match name(register) {
        Some(name) => format!("{name} (0x{register:03X})"),
        None => return format!("0x{register:03X}, which is no register"),
    };
    match (known.place(register), known.reached(register)) {
        // Its name says it all.
        _ if matches!(decode(register), Some(Register::Descriptor(_))) => own,
        (Some(place), _) => format!("{own}: {}", place.name()),
        (None, Some((ram, None))) => {
            format!("{own}: a word of {}, its pointer is not known", ram.name())
        }
        _ => own,
    }
}

/// The fields of what is written or received.
pub fn details(call: &Call, known: &Known) -> Vec<String> {
    match call {
        // "A write clears int_hi or int_lo where its bit is 0; nothing else."
        Call::Write {
            register: 0x004,
            value,
        } => {
            vec![format!(
                "int_hi {}, int_lo {}",
                value >> 30 & 1,
                value >> 29 & 1
            )]
        }
        Call::Write { register, value } => Vec::from_iter(value_in_words(*register, *value, known)),
        Call::Receive {
            packet: Some(packet),
            ..
        } => packets::details(packet),
        _ => Vec::new(),
    }
}

/// A register's value taken apart, where it has parts.
pub fn value_in_words(register: u32, value: u32, known: &Known) -> Option<String> {
    match decode(register)? {
        Register::Pcsr0 => Some(in_words(value, PCSR0)),
        Register::Pcsr1 => Some(in_words(value, PCSR1)),
        Register::SlotCount => Some(format!("{value} slots")),
        _ => known.place(register)?.value_in_words(value),
    }
}

//! Why a value is bad for a register.

use crate::fields::{part, CONTROL1, PCSR0};
use crate::known::Known;
use crate::places::{why_no_block, Place};
use crate::registers::{decode, Register};

pub fn why(register: u32, value: u32, known: &Known) -> String {
    match decode(register) {
        Some(Register::Pcsr0) => {
            let node = part(value, PCSR0, "node");
            match part(value, PCSR0, "reserved") {
                0 => format!("node {node} is above 4095"),
                _ => "reserved bits of PCSR0 have to be 0".to_string(),
            }
        }
        Some(Register::SlotCount) => format!("{value} is above 64, the most slots"),
        Some(Register::Nbqr) => bad_block(value),
        Some(Register::Pointer(ram)) if value % 4 == 0 => {
            format!("{} ends at 0x{:x}", ram.name(), ram.bytes())
        }
        Some(Register::Pointer(_)) => "a pointer is a multiple of 4".to_string(),
        _ => match known.place(register) {
            Some(place) => bad_word(place, value, known),
            None if known.reached(register).is_some() => {
                "the value is bad for the word that was reached".to_string()
            }
            None => "document 01 has no bad value for this register".to_string(),
        },
    }
}

/// "NBQR takes a block address whose next word is 0; anything else is a bad value."
fn bad_block(address: u32) -> String {
    match why_no_block(address) {
        Some(why) => format!("0x{address:x} is no block address: {why}"),
        None => format!(
            "the next word of block 0x{address:x} is not 0: another block follows it on a list"
        ),
    }
}

fn bad_word(place: Place, value: u32, known: &Known) -> String {
    match place {
        Place::Head(_) => bad_block(value),
        Place::Token(_) => "enqueue is 1 and the token is 0".to_string(),
        Place::Descriptor(number, 5) if part(value, CONTROL1, "go") == 1 => {
            let (broken, all_known) = known.broken_go_rule(number, value);
            match (&broken[..], all_known) {
                ([], true) => "the go rule, though no clause of it is seen broken".to_string(),
                ([], false) => {
                    "the go rule; the descriptor's other words are not all known".to_string()
                }
                _ => format!("the go rule: {}", broken.join(", and ")),
            }
        }
        _ => "document 01 has no bad value for this word".to_string(),
    }
}

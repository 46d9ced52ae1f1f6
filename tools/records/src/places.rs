//! 01, "Memories and numbers": what stands where in the two RAMs, and what a word there means.

use crate::fields::{self, Layout};
use crate::registers::Ram;

pub const SLOT_WORDS: usize = 16;
const LISTS_FROM: usize = 1024;
const NQR_FROM: usize = 1152;
const AQR_FROM: usize = 1408;
const NBQR_FROM: usize = 1664;
const PLACES_FROM: usize = 1920;
const REST_FROM: usize = 1984;
/// The station's memories "are the largest".
pub const DATA_BYTES: u32 = 32_768;
pub const NOTICE_BYTES: u32 = 8_192;

/// A word of a RAM.
#[derive(Clone, Copy, Debug, PartialEq, Eq)]
pub enum Place {
    Descriptor(usize, usize),
    Dio(usize),
    Slot(usize, usize),
    Head(usize),
    Token(usize),
    Queue(&'static str, usize),
    Reader(usize),
    Rest(usize),
}

const DESCRIPTOR_NAMES: [&str; 16] = [
    "msg_address",
    "fab and dst_node",
    "dst_slot and note_index",
    "control0",
    "bytes_to_go",
    "control1",
    "status2",
    "unused",
    "metadata",
    "metadata",
    "metadata",
    "metadata",
    "unused",
    "unused",
    "unused",
    "unused",
];

const SLOT_NAMES: [&str; 16] = [
    "base",
    "size",
    "note_index and flags",
    "bytes_to_go",
    "msg_size",
    "msg_offset",
    "ack_note_index",
    "meta flag and length",
    "metadata",
    "metadata",
    "metadata",
    "metadata",
    "unused",
    "unused",
    "unused",
    "unused",
];

/// The word at a byte address, which is a multiple of 4 inside the RAM.
pub fn place(ram: Ram, byte: u32) -> Place {
    let word = byte as usize / 4;
    match ram {
        Ram::Send if word < 64 => Place::Descriptor(word / 16, word % 16),
        Ram::Send => Place::Dio(4 * word),
        Ram::Receive => receive_place(word),
    }
}

fn receive_place(word: usize) -> Place {
    if word < LISTS_FROM {
        Place::Slot(word / SLOT_WORDS, word % SLOT_WORDS)
    } else if word < NQR_FROM {
        let list = (word - LISTS_FROM) / 2;
        match word % 2 {
            0 => Place::Head(list),
            _ => Place::Token(list),
        }
    } else if word < AQR_FROM {
        Place::Queue("NQR", word - NQR_FROM)
    } else if word < NBQR_FROM {
        Place::Queue("AQR", word - AQR_FROM)
    } else if word < PLACES_FROM {
        Place::Queue("NBQR", word - NBQR_FROM)
    } else if word < REST_FROM {
        Place::Reader(word - PLACES_FROM)
    } else {
        Place::Rest(word)
    }
}

impl Place {
    pub fn name(self) -> String {
        match self {
            Place::Descriptor(number, word) => {
                format!(
                    "descriptor {number} word {word} ({})",
                    DESCRIPTOR_NAMES[word]
                )
            }
            Place::Dio(byte) => format!("DIO word at byte 0x{byte:03x}"),
            Place::Slot(slot, word) => format!("slot {slot} word {word} ({})", SLOT_NAMES[word]),
            Place::Head(list) => format!("head of list {list}"),
            Place::Token(list) => format!("token word of list {list}"),
            Place::Queue(queue, entry) => format!("place {entry} of {queue}"),
            Place::Reader(list) => format!("reader's place of list {list}"),
            Place::Rest(word) => format!("Receive RAM word {word}, in the rest"),
        }
    }

    /// How the word is divided, if it is.
    fn layout(self) -> Option<Layout> {
        Some(match self {
            Place::Descriptor(_, 1) => fields::PACKET0,
            Place::Descriptor(_, 2) => fields::DESCRIPTOR2,
            Place::Descriptor(_, 3) => fields::CONTROL0,
            Place::Descriptor(_, 5) => fields::CONTROL1,
            Place::Descriptor(_, 6) => fields::STATUS2,
            Place::Slot(_, 2) => fields::SLOT2,
            Place::Slot(_, 6) => fields::SLOT6,
            Place::Slot(_, 7) => fields::SLOT7,
            Place::Token(_) => fields::TOKEN,
            _ => return None,
        })
    }

    /// A value there, taken apart; none if it is but a number.
    pub fn value_in_words(self, value: u32) -> Option<String> {
        if let Some(layout) = self.layout() {
            return Some(fields::in_words(value, layout));
        }
        Some(match self {
            Place::Slot(_, 3) => format!("{} (signed)", value as i32),
            Place::Slot(_, 0) => format!("from byte {value} of data memory"),
            Place::Slot(_, 1) | Place::Descriptor(_, 4) => format!("{value} bytes"),
            Place::Head(_) | Place::Reader(_) if value == 0 => "no block".to_string(),
            Place::Head(_) | Place::Reader(_) => format!("block 0x{value:x}"),
            Place::Slot(_, 4 | 5) => format!("{value} bytes"),
            Place::Descriptor(_, 0) => format!("byte 0x{value:x}"),
            _ => return None,
        })
    }
}

/// Why an address is no block address: "a multiple of 32, at least 32, wholly inside".
pub fn why_no_block(address: u32) -> Option<&'static str> {
    match address {
        0 => Some("address 0 means none"),
        _ if address % 32 != 0 => Some("a block's address is a multiple of 32"),
        _ if address > NOTICE_BYTES - 32 => Some("the station's last block is at 0x1fe0"),
        _ => None,
    }
}

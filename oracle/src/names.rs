//! Plain words for registers and for the words of the memories.

use crate::engine::layout::*;
use crate::engine::{decode, Ram, Register};

const DESCRIPTOR_NAMES: [&str; 16] = [
    "msg_address",
    "fab and dst_node",
    "dst_slot and note_index",
    "control0",
    "bytes_to_go",
    "control1",
    "status2",
    "word 7",
    "metadata 0",
    "metadata 1",
    "metadata 2",
    "metadata 3",
    "word 12",
    "word 13",
    "word 14",
    "word 15",
];

const SLOT_NAMES: [&str; 16] = [
    "base",
    "size",
    "note_index and flags",
    "bytes_to_go",
    "msg_size",
    "msg_offset",
    "ack_note_index",
    "meta flag and length",
    "metadata 0",
    "metadata 1",
    "metadata 2",
    "metadata 3",
    "word 12",
    "word 13",
    "word 14",
    "word 15",
];

pub fn send_word(word: usize) -> String {
    if word < DESCRIPTORS * DESCRIPTOR_WORDS {
        let (number, part) = (word / DESCRIPTOR_WORDS, word % DESCRIPTOR_WORDS);
        format!("descriptor {number} {}", DESCRIPTOR_NAMES[part])
    } else {
        format!("DIO byte {:#x}", 4 * word)
    }
}

pub fn receive_word(word: usize) -> String {
    if word < LISTS_FROM {
        let (slot, part) = (word / SLOT_WORDS, word % SLOT_WORDS);
        format!("slot {slot} {}", SLOT_NAMES[part])
    } else if word < NQR_FROM {
        let part = ["head", "token"][word % 2];
        format!("list {} {part}", (word - LISTS_FROM) / 2)
    } else if word < AQR_FROM {
        format!("NQR entry {}", word - NQR_FROM)
    } else if word < NBQR_FROM {
        format!("AQR entry {}", word - AQR_FROM)
    } else if word < PLACES_FROM {
        format!("NBQR entry {}", word - NBQR_FROM)
    } else if word < REST_FROM {
        format!("list {} reader's place", word - PLACES_FROM)
    } else {
        format!("rest word {word}")
    }
}

pub fn notice_word(word: usize) -> String {
    format!(
        "block {:#x} word {}",
        4 * (word - word % BLOCK_WORDS),
        word % BLOCK_WORDS
    )
}

/// A register with what it reaches; the pointers are those of the moment.
pub fn register(address: u32, send_pointer: u32, receive_pointer: u32) -> String {
    let ram_word = |ram: Ram, byte: u32| match ram {
        Ram::Send => send_word(byte as usize / 4),
        Ram::Receive => receive_word(byte as usize / 4),
    };
    let pointer = |ram: Ram| match ram {
        Ram::Send => send_pointer,
        Ram::Receive => receive_pointer,
    };
    let name = match decode(address) {
        None => "not mapped".to_string(),
        Some(Register::Pcsr0) => "PCSR0".to_string(),
        Some(Register::Pcsr1) => "PCSR1".to_string(),
        Some(Register::Nlhr) => "NLHR".to_string(),
        Some(Register::SlotCount) => "slot count".to_string(),
        Some(Register::Nqr) => "NQR".to_string(),
        Some(Register::Aqr) => "AQR".to_string(),
        Some(Register::Nbqr) => "NBQR".to_string(),
        Some(Register::Taken) => "packets taken".to_string(),
        Some(Register::Faulted) => "packets faulted".to_string(),
        Some(Register::Pointer(ram)) => format!("{ram:?} RAM pointer"),
        Some(Register::Word(ram)) => ram_word(ram, pointer(ram)),
        Some(Register::WordThenStep(ram)) => ram_word(ram, pointer(ram)) + ", then step",
        Some(Register::Descriptor(word)) => send_word(word),
        Some(Register::Page(ram, low)) => ram_word(ram, pointer(ram) & !0xFF | low) + ", by page",
    };
    format!("{address:#05x} ({name})")
}

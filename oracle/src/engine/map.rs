//! 01, "Registers": which address means what.

use super::layout::{RECEIVE_WORDS, SEND_WORDS};

#[derive(Clone, Copy, Debug, PartialEq, Eq)]
pub enum Ram {
    Send,
    Receive,
}

impl Ram {
    pub fn words(self) -> usize {
        match self {
            Ram::Send => SEND_WORDS,
            Ram::Receive => RECEIVE_WORDS,
        }
    }
}

/// What a register address names.
#[derive(Clone, Copy, Debug, PartialEq, Eq)]
pub enum Register {
    Pcsr0,
    Pcsr1,
    Nlhr,
    SlotCount,
    Nqr,
    Aqr,
    Nbqr,
    Taken,
    Faulted,
    /// "pointer 0x040"
    Pointer(Ram),
    /// "word 0x044"
    Word(Ram),
    /// "word then pointer plus 4 0x048"
    WordThenStep(Ram),
    /// "0x100 to 0x1FC descriptors", by Send RAM word.
    Descriptor(usize),
    /// "the pointer with its low byte replaced", by this byte.
    Page(Ram, u32),
}

/// no-register: "address not mapped or not a multiple of 4".
pub fn decode(address: u32) -> Option<Register> {
    if address % 4 != 0 {
        return None;
    }
    Some(match address {
        0x000 => Register::Pcsr0,
        0x004 => Register::Pcsr1,
        0x008 => Register::Nlhr,
        0x00C => Register::SlotCount,
        0x014 => Register::Nqr,
        0x018 => Register::Aqr,
        0x01C => Register::Nbqr,
        0x020 => Register::Taken,
        0x024 => Register::Faulted,
        0x040 => Register::Pointer(Ram::Send),
        0x044 => Register::Word(Ram::Send),
        0x048 => Register::WordThenStep(Ram::Send),
        0x080 => Register::Pointer(Ram::Receive),
        0x084 => Register::Word(Ram::Receive),
        0x088 => Register::WordThenStep(Ram::Receive),
        0x100..=0x1FC => Register::Descriptor((address - 0x100) as usize / 4),
        0x200..=0x2FC => Register::Page(Ram::Send, address - 0x200),
        0x300..=0x3FC => Register::Page(Ram::Receive, address - 0x300),
        _ => return None,
    })
}

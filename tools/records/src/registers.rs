//! 01, "Registers": which number means what, and a name for each.

#[derive(Clone, Copy, Debug, PartialEq, Eq)]
pub enum Ram {
    Send,
    Receive,
}

impl Ram {
    /// "Send RAM 1,024 words of 32 bits", "Receive RAM 2,048 words".
    pub fn bytes(self) -> u32 {
        match self {
            Ram::Send => 0x1000,
            Ram::Receive => 0x2000,
        }
    }

    pub fn name(self) -> &'static str {
        match self {
            Ram::Send => "Send RAM",
            Ram::Receive => "Receive RAM",
        }
    }
}

#[derive(Clone, Copy, Debug, PartialEq, Eq)]
pub enum Register {
    Pcsr0,
    Pcsr1,
    Nlhr,
    SlotCount,
    Nqr,
    Aqr,
    Nbqr,
    Taken,
    Faulted,
    /// "pointer 0x040"
    Pointer(Ram),
    /// "word 0x044"
    Word(Ram),
    /// "word then pointer plus 4 0x048"
    WordThenStep(Ram),
    /// "0x100 to 0x1FC descriptors", by word of Send RAM.
    Descriptor(usize),
    /// "pages: the pointer with its low byte replaced", by this byte.
    Page(Ram, u32),
}

/// The registers that stand alone.
const SINGLE: [(u32, &str, Register); 15] = [
    (0x000, "PCSR0", Register::Pcsr0),
    (0x004, "PCSR1", Register::Pcsr1),
    (0x008, "NLHR", Register::Nlhr),
    (0x00C, "slot_count", Register::SlotCount),
    (0x014, "NQR", Register::Nqr),
    (0x018, "AQR", Register::Aqr),
    (0x01C, "NBQR", Register::Nbqr),
    (0x020, "packets_taken", Register::Taken),
    (0x024, "packets_faulted", Register::Faulted),
    (0x040, "send_pointer", Register::Pointer(Ram::Send)),
    (0x044, "send_word", Register::Word(Ram::Send)),
    (0x048, "send_word_step", Register::WordThenStep(Ram::Send)),
    (0x080, "receive_pointer", Register::Pointer(Ram::Receive)),
    (0x084, "receive_word", Register::Word(Ram::Receive)),
    (
        0x088,
        "receive_word_step",
        Register::WordThenStep(Ram::Receive),
    ),
];

/// 01, "Sending": "Descriptor words 0 to 6, 8 to 11". Names of one word each, to be typed.
const DESCRIPTOR_WORDS: [&str; 16] = [
    "msg_address",
    "dst_node",
    "dst_slot",
    "control0",
    "bytes_to_go",
    "control1",
    "status2",
    "word7",
    "metadata0",
    "metadata1",
    "metadata2",
    "metadata3",
    "word12",
    "word13",
    "word14",
    "word15",
];

const SEND_PAGE: &str = "send_page+";
const RECEIVE_PAGE: &str = "receive_page+";

/// no-register: "address not mapped or not a multiple of 4".
pub fn decode(number: u32) -> Option<Register> {
    if number % 4 != 0 {
        return None;
    }
    match number {
        0x100..=0x1FC => Some(Register::Descriptor((number - 0x100) as usize / 4)),
        0x200..=0x2FC => Some(Register::Page(Ram::Send, number - 0x200)),
        0x300..=0x3FC => Some(Register::Page(Ram::Receive, number - 0x300)),
        _ => {
            let single = SINGLE.iter().find(|(own, ..)| *own == number);
            single.map(|(.., register)| *register)
        }
    }
}

/// The name of a mapped register; `named` gives the number back.
pub fn name(number: u32) -> Option<String> {
    Some(match decode(number)? {
        Register::Descriptor(word) => {
            format!("descriptor{}.{}", word / 16, DESCRIPTOR_WORDS[word % 16])
        }
        Register::Page(Ram::Send, low) => format!("{SEND_PAGE}0x{low:02X}"),
        Register::Page(Ram::Receive, low) => format!("{RECEIVE_PAGE}0x{low:02X}"),
        _ => {
            let single = SINGLE.iter().find(|(own, ..)| *own == number)?;
            single.1.to_string()
        }
    })
}

/// The number of a register name; capitals do not matter.
pub fn named(text: &str) -> Option<u32> {
    let numbers = (0..0x400).step_by(4);
    { numbers }.find(|&number| name(number).map_or(false, |own| own.eq_ignore_ascii_case(text)))
}

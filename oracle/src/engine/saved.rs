//! The saved state: what the engine keeps besides the four lent memories.

use super::layout::{AQR_FROM, NBQR_FROM, NQR_FROM, QUEUE_ENTRIES};

/// 01: "A queue's entries stand from its place on, going round after 255".
#[derive(Clone, Copy, Debug, Default, PartialEq, Eq)]
pub struct Queue {
    pub place: u32,
    pub length: u32,
}

impl Queue {
    pub fn is_empty(self) -> bool {
        self.length == 0
    }

    pub fn is_full(self) -> bool {
        self.length >= QUEUE_ENTRIES
    }

    /// Where the entry stands that is `nth` from the oldest.
    pub fn entry(self, nth: u32) -> usize {
        ((self.place + nth) % QUEUE_ENTRIES) as usize
    }

    /// The queue with one entry more; the new one stands at `entry(length)` of the old.
    pub fn with_one_more(self) -> Queue {
        Queue {
            length: self.length + 1,
            ..self
        }
    }

    /// The queue without its oldest entry.
    pub fn without_oldest(self) -> Queue {
        Queue {
            place: (self.place + 1) % QUEUE_ENTRIES,
            length: self.length - 1,
        }
    }
}

/// The three queues of Receive RAM.
#[derive(Clone, Copy, Debug, PartialEq, Eq)]
pub enum QueueName {
    Nqr,
    Aqr,
    Nbqr,
}

impl QueueName {
    pub const ALL: [QueueName; 3] = [QueueName::Nqr, QueueName::Aqr, QueueName::Nbqr];

    /// 01: "from 1152 NQR, AQR and NBQR, 256 each".
    pub fn first_word(self) -> usize {
        match self {
            QueueName::Nqr => NQR_FROM,
            QueueName::Aqr => AQR_FROM,
            QueueName::Nbqr => NBQR_FROM,
        }
    }
}

/// The fifteen saved numbers, in the order of a raw case.
#[derive(Clone, Debug, Default, PartialEq, Eq)]
pub struct Saved {
    pub pcsr0: u32,
    pub int_hi: u32,
    pub int_lo: u32,
    pub slot_count: u32,
    pub taken: u32,
    pub faulted: u32,
    pub send_pointer: u32,
    pub receive_pointer: u32,
    pub nqr: Queue,
    pub aqr: Queue,
    pub nbqr: Queue,
    pub last_sender: u32,
}

impl Saved {
    pub const WORDS: usize = 15;

    pub const NAMES: [&'static str; Saved::WORDS] = [
        "PCSR0",
        "int_hi",
        "int_lo",
        "slot count",
        "packets taken",
        "packets faulted",
        "send pointer",
        "receive pointer",
        "NQR place",
        "NQR length",
        "AQR place",
        "AQR length",
        "NBQR place",
        "NBQR length",
        "last sender",
    ];

    pub fn queue(&self, name: QueueName) -> Queue {
        match name {
            QueueName::Nqr => self.nqr,
            QueueName::Aqr => self.aqr,
            QueueName::Nbqr => self.nbqr,
        }
    }

    pub fn queue_mut(&mut self, name: QueueName) -> &mut Queue {
        match name {
            QueueName::Nqr => &mut self.nqr,
            QueueName::Aqr => &mut self.aqr,
            QueueName::Nbqr => &mut self.nbqr,
        }
    }

    /// PCSR0: "reset 1, enable 1, reserved 10, incarnation 4, node 16".
    pub fn enabled(&self) -> bool {
        self.pcsr0 & 0x4000_0000 != 0
    }

    pub fn incarnation(&self) -> u32 {
        self.pcsr0 >> 16 & 0xF
    }

    pub fn node(&self) -> u32 {
        self.pcsr0 & 0xFFFF
    }

    pub fn to_words(&self) -> [u32; Saved::WORDS] {
        [
            self.pcsr0,
            self.int_hi,
            self.int_lo,
            self.slot_count,
            self.taken,
            self.faulted,
            self.send_pointer,
            self.receive_pointer,
            self.nqr.place,
            self.nqr.length,
            self.aqr.place,
            self.aqr.length,
            self.nbqr.place,
            self.nbqr.length,
            self.last_sender,
        ]
    }

    pub fn from_words(words: [u32; Saved::WORDS]) -> Saved {
        let queue = |place: u32, length: u32| Queue { place, length };
        Saved {
            pcsr0: words[0],
            int_hi: words[1],
            int_lo: words[2],
            slot_count: words[3],
            taken: words[4],
            faulted: words[5],
            send_pointer: words[6],
            receive_pointer: words[7],
            nqr: queue(words[8], words[9]),
            aqr: queue(words[10], words[11]),
            nbqr: queue(words[12], words[13]),
            last_sender: words[14],
        }
    }
}

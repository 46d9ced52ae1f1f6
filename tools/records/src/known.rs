//! What is known of the station's state from the calls and their answers. A station begins with
//! zeros and a reset, so at first all is known; what is not known is none.

mod notices;
mod receiving;
mod registers;
mod sending;
mod validity;

use std::collections::{BTreeSet, VecDeque};

use crate::call::Call;
use crate::fields::{part, PCSR0};
use crate::packet::Packet;
use crate::reply::{Line, Reply};

pub use notices::{Event, Notice};

type Words = [Option<u32>; 16];

pub const SLOTS: usize = 64;
pub const LISTS: usize = 64;
pub const QUEUE_ENTRIES: u32 = 256;

#[derive(Clone, Debug)]
pub struct Known {
    pub pcsr0: Option<u32>,
    pub slot_count: Option<u32>,
    pub send_pointer: Option<u32>,
    pub receive_pointer: Option<u32>,
    pub descriptors: [Words; 4],
    pub last_sender: Option<usize>,
    pub slots: Vec<Words>,
    pub tokens: [Option<u32>; LISTS],
    /// Is the list's head set?
    pub heads: [Option<bool>; LISTS],
    /// How many entries the queues hold.
    pub nqr: Option<u32>,
    pub aqr: Option<u32>,
    pub nbqr: Option<u32>,
    /// The notices on each list that have not been taken, the oldest first.
    pub posted: Vec<Option<VecDeque<Notice>>>,
    /// The blocks handed over since the reset. One that is handed over twice stands in two places,
    /// and then lists may run into one another.
    handed: BTreeSet<u32>,
}

impl Known {
    pub fn nothing() -> Known {
        Known {
            pcsr0: None,
            slot_count: None,
            send_pointer: None,
            receive_pointer: None,
            descriptors: [[None; 16]; 4],
            last_sender: None,
            slots: vec![[None; 16]; SLOTS],
            tokens: [None; LISTS],
            heads: [None; LISTS],
            nqr: None,
            aqr: None,
            nbqr: None,
            posted: vec![None; LISTS],
            handed: BTreeSet::new(),
        }
    }

    /// "Reset clears Receive RAM, notice memory, descriptors (status2 then 0x20000000), counts,
    /// pointers, slot count, interrupt bits; the other fields are stored with reset 0. [...] Last
    /// sender becomes 3."
    pub fn after_reset(pcsr0: u32) -> Known {
        let mut descriptor = [Some(0); 16];
        descriptor[6] = Some(0x2000_0000);
        Known {
            pcsr0: Some(pcsr0 & 0x7FFF_FFFF),
            slot_count: Some(0),
            send_pointer: Some(0),
            receive_pointer: Some(0),
            descriptors: [descriptor; 4],
            last_sender: Some(3),
            slots: vec![[Some(0); 16]; SLOTS],
            tokens: [Some(0); LISTS],
            heads: [Some(false); LISTS],
            nqr: Some(0),
            aqr: Some(0),
            nbqr: Some(0),
            posted: vec![Some(VecDeque::new()); LISTS],
            handed: BTreeSet::new(),
        }
    }

    /// A field of PCSR0.
    pub fn pcsr0_field(&self, name: &str) -> Option<u32> {
        self.pcsr0.map(|word| part(word, PCSR0, name))
    }

    /// Follows a call that was answered by this line. A refusal changes nothing, but for the
    /// stalled mark of fabric.
    pub fn follow(&mut self, call: &Call, line: &Line) {
        match (line.reply, call) {
            (Reply::Done, Call::Write { register, value }) => self.written(*register, *value),
            (Reply::Done, Call::Read { register }) => self.was_read(*register, line.value),
            (Reply::Done, Call::Receive { packet, .. }) => {
                self.received(packet.and_then(Packet::new));
            }
            (Reply::Fault, Call::Receive { packet, .. }) => {
                self.faulted(packet.and_then(Packet::new), line.value);
            }
            (Reply::Done, Call::Send { .. }) => self.was_sent(),
            (Reply::Fabric, Call::Send { .. }) => self.was_held(),
            (Reply::Done, Call::Take { list }) => self.was_taken(*list),
            _ => {}
        }
        self.interrupted(line.interrupts);
    }
}

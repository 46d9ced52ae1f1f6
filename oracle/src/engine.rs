//! The engine of document 01, as a second implementation to test another against.
//!
//! A `Machine` is the saved state and the four memories. It takes five calls (write, read,
//! receive, send, take) and the unknown one; each answers a reply, a value and interrupts.
//! Comments in quotation marks are 01's words; docs/DECISIONS.md has how its unclear points are
//! read.

mod arrival;
pub mod descriptor;
pub mod layout;
mod machine;
mod map;
mod notice;
pub mod packet;
mod receive;
mod registers;
mod reply;
mod saved;
mod send;
mod slot;
mod sound;
mod take;
mod words;

pub use descriptor::Descriptor;
pub use machine::Machine;
pub use map::{decode, Ram, Register};
pub use reply::{Answer, Reply};
pub use saved::{Queue, QueueName, Saved};
pub use slot::Slot;

use crate::wrong::Wrong;
use layout::{DATA_BYTES_MOST, NOTICE_WORDS_MOST};

/// The station's machine, the five calls and the unknown one.
impl Machine {
    /// "Memories are the largest, zero, then reset by writing 0x80000000 to PCSR0."
    pub fn station(wrong: Option<Wrong>) -> Machine {
        let mut machine = Machine::zeroed(DATA_BYTES_MOST, NOTICE_WORDS_MOST);
        machine.wrong = wrong;
        machine.write(0, 0x8000_0000);
        machine
    }

    pub fn write(&mut self, register: u32, value: u32) -> Answer {
        self.try_write(register, value)
            .unwrap_or_else(Answer::refusal)
    }

    pub fn read(&mut self, register: u32) -> Answer {
        self.try_read(register).unwrap_or_else(Answer::refusal)
    }

    pub fn receive(&mut self, packet: &[u8]) -> Answer {
        self.try_receive(packet).unwrap_or_else(Answer::refusal)
    }

    /// `room` is where the packet goes; "Bytes past a sent packet stay."
    pub fn send(&mut self, fabric_ready: bool, room: &mut [u8]) -> Answer {
        self.try_send(fabric_ready, room)
            .unwrap_or_else(Answer::refusal)
    }

    /// `room` is the "8 lent words".
    pub fn take(&mut self, list: u32, room: &mut [u32]) -> Answer {
        self.try_take(list, room).unwrap_or_else(Answer::refusal)
    }

    /// no-register: "unknown call".
    pub fn unknown(&mut self) -> Answer {
        Answer::refusal(match self.check_sizes_and_sound() {
            Err(refused) => refused,
            Ok(()) => Reply::NoRegister,
        })
    }
}

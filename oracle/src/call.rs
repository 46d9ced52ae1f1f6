//! A call as data: the five of 01 and the unknown one, with what they are given.

use crate::engine::packet::LONGEST;
use crate::engine::{Answer, Machine};

#[derive(Clone, Debug, PartialEq, Eq)]
pub enum Call {
    Write { register: u32, value: u32 },
    Read { register: u32 },
    Receive { packet: Vec<u8> },
    Send { first: u32 },
    Take { list: u32 },
    Unknown { kind: u32 },
}

/// The rooms a caller lends: for the packet sent, and for the notice taken.
#[derive(Clone, Debug, PartialEq, Eq)]
pub struct Rooms {
    pub packet: Vec<u8>,
    pub notice: Vec<u32>,
}

impl Default for Rooms {
    /// Rooms that are just long enough.
    fn default() -> Rooms {
        Rooms {
            packet: vec![0; LONGEST],
            notice: vec![0; 8],
        }
    }
}

impl Call {
    /// 01: "Kinds: 1 write (register, value), 2 read, 3 receive [...], 4 send [...], 5 take."
    pub fn kind(&self) -> u32 {
        match self {
            Call::Write { .. } => 1,
            Call::Read { .. } => 2,
            Call::Receive { .. } => 3,
            Call::Send { .. } => 4,
            Call::Take { .. } => 5,
            Call::Unknown { kind } => *kind,
        }
    }

    /// The two numbers that go with the kind.
    pub fn numbers(&self) -> (u32, u32) {
        match *self {
            Call::Write { register, value } => (register, value),
            Call::Read { register } => (register, 0),
            Call::Send { first } => (first, 0),
            Call::Take { list } => (list, 0),
            Call::Receive { .. } | Call::Unknown { .. } => (0, 0),
        }
    }

    /// The call a kind and two numbers stand for; `packet` is looked at for kind 3 only.
    pub fn of(kind: u32, first: u32, second: u32, packet: &[u8]) -> Call {
        match kind {
            1 => Call::Write {
                register: first,
                value: second,
            },
            2 => Call::Read { register: first },
            3 => Call::Receive {
                packet: packet.to_vec(),
            },
            4 => Call::Send { first },
            5 => Call::Take { list: first },
            kind => Call::Unknown { kind },
        }
    }

    pub fn run(&self, machine: &mut Machine, rooms: &mut Rooms) -> Answer {
        match self {
            Call::Write { register, value } => machine.write(*register, *value),
            Call::Read { register } => machine.read(*register),
            Call::Receive { packet } => machine.receive(packet),
            // "first number 1: fabric ready"
            Call::Send { first } => machine.send(*first == 1, &mut rooms.packet),
            Call::Take { list } => machine.take(*list, &mut rooms.notice),
            Call::Unknown { .. } => machine.unknown(),
        }
    }
}

//! The call that a record asks for.

use crate::record::{Entry, READ, RECEIVE, SEND, TAKE, WRITE};

#[derive(Clone, Copy, Debug)]
pub enum Call<'a> {
    Write {
        register: u32,
        value: u32,
    },
    Read {
        register: u32,
    },
    /// The packet is none if the length is above 168.
    Receive {
        packet: Option<&'a [u8]>,
        length: u32,
    },
    Send {
        first: u32,
    },
    Take {
        list: u32,
    },
    Unknown {
        kind: u8,
    },
    Torn {
        bytes: usize,
    },
}

impl Call<'_> {
    pub fn of(entry: &Entry) -> Call<'_> {
        let record = match entry {
            Entry::Whole(record) => record,
            Entry::Torn(bytes) => return Call::Torn { bytes: bytes.len() },
        };
        let first = record.first;
        match record.kind {
            WRITE => Call::Write {
                register: first,
                value: record.second,
            },
            READ => Call::Read { register: first },
            RECEIVE => Call::Receive {
                packet: record.packet(),
                length: record.length,
            },
            SEND => Call::Send { first },
            TAKE => Call::Take { list: first },
            kind => Call::Unknown { kind },
        }
    }
}

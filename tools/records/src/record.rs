//! 01, "The station program": the records of a file.

/// "records of 192 bytes: kind, 3 zero bytes, two numbers of 4 bytes, length of 4, 168 bytes of
/// packet, 8 zero".
pub const RECORD: usize = 192;
pub const ROOM: usize = 168;
const ROOM_FROM: usize = 16;

pub const WRITE: u8 = 1;
pub const READ: u8 = 2;
pub const RECEIVE: u8 = 3;
pub const SEND: u8 = 4;
pub const TAKE: u8 = 5;

/// A whole record, with every byte of it.
#[derive(Clone, Debug, PartialEq, Eq)]
pub struct Record {
    pub kind: u8,
    /// The "3 zero bytes", which "are not checked".
    pub filler: [u8; 3],
    pub first: u32,
    pub second: u32,
    pub length: u32,
    /// The "168 bytes of packet".
    pub room: [u8; ROOM],
    /// The "8 zero", not checked either.
    pub tail: [u8; 8],
}

impl Record {
    pub fn new(kind: u8, first: u32, second: u32) -> Record {
        Record {
            kind,
            filler: [0; 3],
            first,
            second,
            length: 0,
            room: [0; ROOM],
            tail: [0; 8],
        }
    }

    fn from_bytes(bytes: &[u8; RECORD]) -> Record {
        let number = |at: usize| {
            u32::from_be_bytes([bytes[at], bytes[at + 1], bytes[at + 2], bytes[at + 3]])
        };
        let mut record = Record::new(bytes[0], number(4), number(8));
        record.filler.copy_from_slice(&bytes[1..4]);
        record.length = number(12);
        let (room, tail) = bytes[ROOM_FROM..].split_at(ROOM);
        record.room.copy_from_slice(room);
        record.tail.copy_from_slice(tail);
        record
    }

    pub fn to_bytes(&self) -> Vec<u8> {
        let mut bytes = vec![self.kind];
        bytes.extend(self.filler);
        for number in [self.first, self.second, self.length] {
            bytes.extend(number.to_be_bytes());
        }
        bytes.extend(self.room);
        bytes.extend(self.tail);
        bytes
    }

    /// "receive (length; above 168 is no-packet)": none above 168.
    pub fn packet(&self) -> Option<&[u8]> {
        self.room.get(..self.length as usize)
    }
}

/// What a file is made of.
#[derive(Clone, Debug, PartialEq, Eq)]
pub enum Entry {
    Whole(Box<Record>),
    /// "A torn last record": its 1 to 191 bytes.
    Torn(Vec<u8>),
}

impl Entry {
    pub fn to_bytes(&self) -> Vec<u8> {
        match self {
            Entry::Whole(record) => record.to_bytes(),
            Entry::Torn(bytes) => bytes.clone(),
        }
    }

    /// The kind that the station prints: "A torn last record is kind 0".
    pub fn kind(&self) -> u8 {
        match self {
            Entry::Whole(record) => record.kind,
            Entry::Torn(_) => 0,
        }
    }
}

pub fn entries(file: &[u8]) -> Vec<Entry> {
    let entry = |bytes: &[u8]| match bytes.try_into() {
        Ok(whole) => Entry::Whole(Box::new(Record::from_bytes(whole))),
        Err(_) => Entry::Torn(bytes.to_vec()),
    };
    file.chunks(RECORD).map(entry).collect()
}

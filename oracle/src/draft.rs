//! A packet under construction: fields set at will, right checks put in when it is encoded.

use crate::engine::packet::check;

/// A field of one of the packet's words 0 to 3.
#[derive(Clone, Copy, Debug)]
pub struct Field {
    word: usize,
    shift: u32,
    width: u32,
}

const fn field(word: usize, shift: u32, width: u32) -> Field {
    Field { word, shift, width }
}

/// 01, "Packet", word by word.
pub const FAB: Field = field(0, 28, 4);
pub const DST_NODE: Field = field(0, 16, 12);
pub const MORE_FAB: Field = field(0, 0, 16);
pub const DST_SLOT: Field = field(1, 16, 16);
pub const SRC_NODE: Field = field(1, 4, 12);
pub const ZERO1: Field = field(1, 0, 4);
pub const USE_MSG_SIZE: Field = field(2, 31, 1);
pub const USE_MSG_OFFSET: Field = field(2, 30, 1);
pub const ACK_PKT: Field = field(2, 29, 1);
pub const RESERVED: Field = field(2, 28, 1);
pub const INCARNATION: Field = field(2, 24, 4);
pub const OFFSET: Field = field(2, 0, 24);
pub const ZERO3: Field = field(3, 28, 4);
pub const META_FLAG: Field = field(3, 27, 1);
pub const META_LEN: Field = field(3, 24, 3);
pub const MSG_SIZE: Field = field(3, 0, 24);

#[derive(Clone, Debug, Default)]
pub struct Draft {
    pub words: [u32; 4],
    /// "header check 16, zero 16": these zeros.
    pub header_zeros: u16,
    pub metadata: [u32; 4],
    pub payload: Vec<u8>,
    /// "body check 16 and zero 16": these zeros.
    pub body_zeros: u16,
    /// Bits by which the two checks shall be wrong.
    pub header_check_flip: u16,
    pub body_check_flip: u16,
}

impl Draft {
    /// Sets a field to the value's low bits.
    pub fn set(&mut self, field: Field, value: u32) {
        let mask = (((1_u64 << field.width) - 1) as u32) << field.shift;
        let word = &mut self.words[field.word];
        *word = *word & !mask | value << field.shift & mask;
    }

    pub fn get(&self, field: Field) -> u32 {
        let mask = ((1_u64 << field.width) - 1) as u32;
        self.words[field.word] >> field.shift & mask
    }

    pub fn with(mut self, field: Field, value: u32) -> Draft {
        self.set(field, value);
        self
    }

    /// The packet's bytes, with right checks unless they are flipped.
    pub fn encode(&self) -> Vec<u8> {
        let header = be_bytes(&self.words);
        let metadata = if self.get(META_FLAG) == 1 {
            be_bytes(&self.metadata)
        } else {
            Vec::new()
        };
        let mut bytes = header.clone();
        let header_check = check(&[&header, &metadata]) ^ self.header_check_flip;
        put_check(&mut bytes, header_check, self.header_zeros);
        bytes.extend(metadata);
        if !self.payload.is_empty() {
            bytes.extend(&self.payload);
            let body_check = check(&[&self.payload]) ^ self.body_check_flip;
            put_check(&mut bytes, body_check, self.body_zeros);
        }
        bytes
    }

    /// The draft that a packet could have come from; `None` if it is no packet.
    pub fn of(bytes: &[u8]) -> Option<Draft> {
        let packet = crate::engine::packet::Packet::new(bytes)?;
        let mut draft = Draft {
            words: [0, 1, 2, 3].map(|index| packet.word(index)),
            ..Draft::default()
        };
        if packet.has_metadata() {
            draft.metadata = packet.metadata();
        }
        draft.payload = packet.payload().to_vec();
        Some(draft)
    }
}

fn be_bytes(words: &[u32]) -> Vec<u8> {
    words.iter().flat_map(|word| word.to_be_bytes()).collect()
}

fn put_check(bytes: &mut Vec<u8>, check: u16, zeros: u16) {
    bytes.extend(check.to_be_bytes());
    bytes.extend(zeros.to_be_bytes());
}

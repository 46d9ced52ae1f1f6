//! 01, "Packet": the check, the length, and the fields.

use crate::fields::{part, CONTROL0, PACKET0, PACKET1, PACKET3, PACKET4};

pub const PAYLOAD_MOST: usize = 128;

/// "CRC-16, polynomial 0x1021, start 0xFFFF, unreflected, no final exclusive-or (H)", over the
/// parts one after the other.
pub fn check(parts: &[&[u8]]) -> u16 {
    let bytes = parts.iter().flat_map(|part| part.iter());
    bytes.fold(0xFFFF, |check, &byte| {
        (0..8).fold(check ^ u16::from(byte) << 8, |rest, _| {
            let divided = if rest & 0x8000 != 0 { 0x1021 } else { 0 };
            rest << 1 ^ divided
        })
    })
}

/// A packet of a right length, seen as fields.
#[derive(Clone, Copy, Debug)]
pub struct Packet<'a> {
    bytes: &'a [u8],
}

impl<'a> Packet<'a> {
    /// "Length: a multiple of 4; without the flag 20, or 28 to 152; with it 36, or 44 to 168.
    /// Otherwise no-packet."
    pub fn new(bytes: &'a [u8]) -> Option<Packet<'a>> {
        let length = bytes.len();
        if length < 20 || length % 4 != 0 {
            return None;
        }
        let packet = Packet { bytes };
        let right = if packet.has_metadata() {
            matches!(length, 36 | 44..=168)
        } else {
            matches!(length, 20 | 28..=152)
        };
        right.then_some(packet)
    }

    /// "Words are big-endian".
    pub fn word(&self, index: usize) -> u32 {
        let bytes = &self.bytes[4 * index..];
        u32::from_be_bytes([bytes[0], bytes[1], bytes[2], bytes[3]])
    }

    pub fn dst_node(&self) -> u32 {
        part(self.word(0), PACKET0, "dst_node")
    }

    pub fn slot(&self) -> u32 {
        part(self.word(1), PACKET1, "dst_slot")
    }

    /// A field of word 2, "control0".
    pub fn control0(&self, name: &str) -> u32 {
        part(self.word(2), CONTROL0, name)
    }

    pub fn is_ack(&self) -> bool {
        self.control0("ack_pkt") == 1
    }

    pub fn has_metadata(&self) -> bool {
        part(self.word(3), PACKET3, "meta flag") == 1
    }

    pub fn meta_len(&self) -> u32 {
        part(self.word(3), PACKET3, "meta_len")
    }

    pub fn msg_size(&self) -> u32 {
        part(self.word(3), PACKET3, "msg_size")
    }

    /// "With the flag, four metadata words."
    pub fn metadata(&self) -> Option<[u32; 4]> {
        let words = || [5, 6, 7, 8].map(|index| self.word(index));
        self.has_metadata().then(words)
    }

    /// "The payload begins at byte 20, or at byte 36 with metadata".
    fn payload_from(&self) -> usize {
        if self.has_metadata() {
            36
        } else {
            20
        }
    }

    /// "If not empty, body check 16 and zero 16 follow."
    pub fn payload(&self) -> &'a [u8] {
        let rest = &self.bytes[self.payload_from()..];
        &rest[..rest.len().saturating_sub(4)]
    }

    /// "Header check covers bytes 0 to 15 and metadata".
    pub fn header_check_is_right(&self) -> bool {
        let metadata = &self.bytes[20..self.payload_from()];
        let given = part(self.word(4), PACKET4, "header check");
        given == u32::from(check(&[&self.bytes[..16], metadata]))
    }

    /// The body check and the zeros behind it; none without payload.
    pub fn body_end(&self) -> Option<(u16, u16)> {
        let last = self.word(self.bytes.len() / 4 - 1);
        (!self.payload().is_empty()).then_some(((last >> 16) as u16, last as u16))
    }

    /// "body check or its padding".
    pub fn body_is_right(&self) -> bool {
        self.body_end()
            .map_or(true, |end| end == (check(&[self.payload()]), 0))
    }

    /// "zero and reserved fields, meta_len as meta_cnt, ack is 20 bytes (H)": those broken.
    pub fn wrong_fields(&self) -> Vec<&'static str> {
        let rules = [
            (self.word(1) & 0xF != 0, "the zero of word 1 is not 0"),
            (self.control0("reserved") != 0, "the reserved bit is not 0"),
            (self.word(3) >> 28 != 0, "the zero of word 3 is not 0"),
            (self.word(4) & 0xFFFF != 0, "the zero of word 4 is not 0"),
            (self.meta_len() > 4, "meta_len is above 4"),
            (
                self.meta_len() > 0 && !self.has_metadata(),
                "meta_len is not 0 without the meta flag",
            ),
            (
                self.is_ack() && self.bytes.len() != 20,
                "it is an ack of more than 20 bytes",
            ),
        ];
        let broken = rules.into_iter().filter(|(broken, _)| *broken);
        broken.map(|(_, rule)| rule).collect()
    }
}

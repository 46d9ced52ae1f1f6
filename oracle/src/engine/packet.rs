//! 01, "Packet": the check, the length, and the fields.

/// "packet room below 168 bytes": the longest packet.
pub const LONGEST: usize = 168;

/// "CRC-16, polynomial 0x1021, start 0xFFFF, unreflected, no final exclusive-or (H)", over the
/// parts one after the other.
pub fn check(parts: &[&[u8]]) -> u16 {
    parts
        .iter()
        .flat_map(|part| part.iter())
        .fold(0xFFFF, |check, &byte| {
            check << 8 ^ TABLE[usize::from((check >> 8) as u8 ^ byte)]
        })
}

/// The check of each single byte: eight steps of the division by the polynomial.
const TABLE: [u16; 256] = {
    let mut table = [0; 256];
    let mut byte = 0;
    while byte < 256 {
        let mut rest = (byte as u16) << 8;
        let mut step = 0;
        while step < 8 {
            let top = rest & 0x8000 != 0;
            rest <<= 1;
            if top {
                rest ^= 0x1021;
            }
            step += 1;
        }
        table[byte] = rest;
        byte += 1;
    }
    table
};

/// A packet of a right length, seen as fields.
#[derive(Clone, Copy, Debug)]
pub struct Packet<'a> {
    bytes: &'a [u8],
}

impl<'a> Packet<'a> {
    /// "Length: a multiple of 4; without the flag 20, or 28 to 152; with it 36, or 44 to 168.
    /// Otherwise no-packet."
    pub fn new(bytes: &'a [u8]) -> Option<Packet<'a>> {
        let length = bytes.len();
        if length < 20 || length % 4 != 0 {
            return None;
        }
        let packet = Packet { bytes };
        let right = if packet.has_metadata() {
            matches!(length, 36 | 44..=168)
        } else {
            matches!(length, 20 | 28..=152)
        };
        right.then_some(packet)
    }

    pub fn length(&self) -> usize {
        self.bytes.len()
    }

    /// "Words are big-endian".
    pub fn word(&self, index: usize) -> u32 {
        word_at(self.bytes, 4 * index)
    }

    /// "Word 0 is address0": fab 4, dst_node 12, fab 16.
    pub fn dst_node(&self) -> u32 {
        self.word(0) >> 16 & 0xFFF
    }

    /// "1 is dst_slot 16, src_node 12, zero 4".
    pub fn dst_slot(&self) -> u32 {
        self.word(1) >> 16
    }

    pub fn src_node(&self) -> u32 {
        self.word(1) >> 4 & 0xFFF
    }

    /// "2 is control0": use_msg_size, use_msg_offset, ack_pkt, reserved, incarnation 4, offset 24.
    pub fn uses_msg_size(&self) -> bool {
        self.word(2) & 1 << 31 != 0
    }

    pub fn uses_msg_offset(&self) -> bool {
        self.word(2) & 1 << 30 != 0
    }

    pub fn is_ack(&self) -> bool {
        self.word(2) & 1 << 29 != 0
    }

    pub fn incarnation(&self) -> u32 {
        self.word(2) >> 24 & 0xF
    }

    pub fn offset(&self) -> u32 {
        self.word(2) & 0xFF_FFFF
    }

    /// "3 is zero 4, meta flag 1, meta_len 3, msg_size 24".
    pub fn has_metadata(&self) -> bool {
        self.word(3) & 1 << 27 != 0
    }

    pub fn meta_len(&self) -> u32 {
        self.word(3) >> 24 & 7
    }

    pub fn msg_size(&self) -> u32 {
        self.word(3) & 0xFF_FFFF
    }

    /// "4 is header check 16, zero 16".
    pub fn header_check(&self) -> u16 {
        (self.word(4) >> 16) as u16
    }

    /// "With the flag, four metadata words."
    pub fn metadata_bytes(&self) -> &'a [u8] {
        &self.bytes[20..self.payload_from()]
    }

    pub fn metadata(&self) -> [u32; 4] {
        let bytes = self.metadata_bytes();
        [0, 4, 8, 12].map(|from| word_at(bytes, from))
    }

    /// "Header check covers bytes 0 to 15 and metadata".
    pub fn header_bytes(&self) -> &'a [u8] {
        &self.bytes[..16]
    }

    /// "The payload begins at byte 20, or at byte 36 with metadata".
    fn payload_from(&self) -> usize {
        if self.has_metadata() {
            36
        } else {
            20
        }
    }

    pub fn payload(&self) -> &'a [u8] {
        let after_header = &self.bytes[self.payload_from()..];
        &after_header[..after_header.len().saturating_sub(4)]
    }

    /// "If not empty, body check 16 and zero 16 follow."
    pub fn body_check_and_padding(&self) -> (u16, u16) {
        let last = word_at(self.bytes, self.bytes.len() - 4);
        ((last >> 16) as u16, last as u16)
    }
}

fn word_at(bytes: &[u8], from: usize) -> u32 {
    u32::from_be_bytes([
        bytes[from],
        bytes[from + 1],
        bytes[from + 2],
        bytes[from + 3],
    ])
}

#[cfg(test)]
mod tests {
    use super::check;

    /// "The check of ASCII 123456789 is 0x29B1, run by a program."
    #[test]
    fn check_of_the_nine_digits() {
        assert_eq!(check(&[b"123456789"]), 0x29B1);
        assert_eq!(check(&[b"1234", b"", b"56789"]), 0x29B1);
        assert_eq!(check(&[]), 0xFFFF);
    }
}

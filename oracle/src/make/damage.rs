//! Packets damaged, and what never was a packet.

use super::driver::Driver;
use crate::engine::packet::check;

impl Driver<'_> {
    /// Damaged in a bit or a byte, cut, or lengthened, the checks left as they were.
    pub fn damaged(&mut self, mut packet: Vec<u8>) -> Vec<u8> {
        let place = self.rng.index(packet.len());
        match self.rng.below(10) {
            0..=2 => packet[place] ^= 1 << self.rng.below(8),
            3 => packet[place] = self.rng.word() as u8,
            4 => packet.truncate(place),
            5 => packet.truncate(packet.len().saturating_sub(4 * self.rng.index(10)).max(1)),
            6 => {
                let more = self.rng.pick(&[1, 2, 3, 4, 4, 8, 16, 32]);
                packet.extend(self.rng.bytes(more));
            }
            // the flag for the length
            7 if packet.len() > 12 => packet[12] ^= 0x08,
            // the header check
            8 if packet.len() > 17 => packet[16 + self.rng.index(2)] ^= 1 << self.rng.below(8),
            // the last word: body check or its padding
            _ => {
                let last = packet.len() - 1 - self.rng.index(4).min(packet.len() - 1);
                packet[last] ^= 1 << self.rng.below(8);
            }
        }
        packet
    }

    /// Bytes of any length, or a header of zeros; sometimes with a right header check.
    pub fn garbage(&mut self) {
        let mut length = match self.rng.below(4) {
            0 => self.rng.index(200),
            1 => self.rng.pick(&[
                0, 16, 19, 20, 21, 24, 28, 32, 36, 40, 44, 152, 156, 168, 172,
            ]),
            _ => 4 * self.rng.index(44),
        };
        length = length.min(200);
        let mut packet = self.rng.bytes(length);
        if self.rng.chance(30) {
            packet.fill(0);
        }
        if length > 12 && self.rng.chance(60) {
            packet[12] = self.rng.pick(&[0, 0, 8, 9, 12, 13]);
        }
        if length >= 20 && self.rng.chance(50) {
            let metadata = if packet[12] & 8 != 0 && length >= 36 {
                packet[20..36].to_vec()
            } else {
                Vec::new()
            };
            let right = check(&[&packet[..16], &metadata]).to_be_bytes();
            packet[16..18].copy_from_slice(&right);
            packet[18..20].fill(0);
        }
        self.receive(packet);
    }
}

//! Blocks of notice memory: handed over by NBQR and as heads, rightly and wrongly.

use super::driver::Driver;
use crate::engine::layout::{ListIndex, NEXT};
use crate::engine::{Machine, QueueName, Ram};
use crate::rng::Rng;

/// How many blocks a notice memory has.
pub fn block_count(machine: &Machine) -> u32 {
    (machine.notices.len() as u32 / 8).saturating_sub(1)
}

/// Any block address; 0 if the memory is too small for one.
pub fn any_block(machine: &Machine, rng: &mut Rng) -> u32 {
    match block_count(machine) {
        0 => 0,
        blocks => 32 * rng.range(1, blocks),
    }
}

/// Something that is no block address, or only just one.
pub fn odd_address(machine: &Machine, rng: &mut Rng) -> u32 {
    let end = 4 * machine.notices.len() as u32;
    match rng.below(8) {
        0 => 0,
        1 => rng.pick(&[1, 4, 8, 16, 28, 31]),
        2 => end,
        3 => end.wrapping_sub(32),
        4 => end.wrapping_sub(16),
        5 => any_block(machine, rng) | 1 << rng.below(5),
        6 => any_block(machine, rng) | 1 << rng.range(13, 31),
        _ => rng.wild_word(),
    }
}

/// A block in nobody's hands: not waiting, no head, its next 0.
fn free_block(machine: &Machine, rng: &mut Rng) -> Option<u32> {
    let is_waiting = |address: u32| {
        (0..machine.saved.nbqr.length)
            .any(|nth| machine.receive_ram[machine.entry_word(QueueName::Nbqr, nth)] == address)
    };
    let is_head = |address: u32| ListIndex::all().any(|list| machine.head(list) == address);
    (0..12).map(|_| any_block(machine, rng)).find(|&address| {
        machine.block(address).map_or(false, |block| {
            machine.notices[block.word(NEXT)] == 0 && !is_waiting(address) && !is_head(address)
        })
    })
}

impl Driver<'_> {
    pub fn fresh_block(&mut self) -> u32 {
        free_block(&self.machine, &mut self.rng)
            .unwrap_or_else(|| any_block(&self.machine, &mut self.rng))
    }

    /// One block to NBQR: mostly a free one, also any (perhaps a second time), also none at all.
    pub fn hand_block(&mut self) {
        let address = match self.rng.below(20) {
            0..=1 => odd_address(&self.machine, &mut self.rng),
            2..=3 => any_block(&self.machine, &mut self.rng),
            _ => self.fresh_block(),
        };
        self.write(0x01C, address);
        if self.chance_to_look(15) {
            self.read(0x004);
        }
    }

    pub fn hand_blocks(&mut self, count: u32) {
        for _ in 0..count {
            let address = self.fresh_block();
            self.write(0x01C, address);
        }
    }

    /// A list's head: a good write while it is 0 (a block, rarely something odd), any otherwise.
    pub fn write_head(&mut self, list: ListIndex) {
        let address = match self.rng.below(20) {
            0..=1 => odd_address(&self.machine, &mut self.rng),
            2 => any_block(&self.machine, &mut self.rng),
            _ => self.fresh_block(),
        };
        self.put(Ram::Receive, list.head_word(), address);
        if self.chance_to_look(30) {
            self.get(Ram::Receive, list.head_word());
            self.get(Ram::Receive, list.place_word());
        }
    }

    /// A list's token word: with enqueue or without, now and then the bad 1.
    pub fn write_token(&mut self, list: ListIndex) {
        let token = match self.rng.below(12) {
            0 => 1,
            1 => 0,
            2 => 2,
            3 => 3,
            4 => u32::MAX,
            5..=6 => self.rng.word() & !1,
            _ => self.rng.word() | 1,
        };
        self.put(Ram::Receive, list.token_word(), token);
    }
}

//! Settings: reset, PCSR0, slot count, slots and lists.

use super::driver::Driver;
use crate::engine::layout::{ListIndex, SLOTS};
use crate::engine::Ram;

const ENABLE: u32 = 0x4000_0000;
const RESET: u32 = 0x8000_0000;

/// How rich an episode's settings are.
#[derive(Clone, Copy, Debug)]
pub struct Wealth {
    /// The most blocks handed over at the start.
    pub blocks: u32,
    /// Lists with a head, in a hundred.
    pub heads: u32,
}

impl Driver<'_> {
    /// A new episode's settings, after a reset nearly always.
    pub fn set_up(&mut self, wealth: Wealth) {
        self.choose_slots_and_lists();
        if self.rng.chance(95) {
            self.reset();
        }
        let count = match self.rng.below(16) {
            0 => self.rng.below(9),
            1 => self.rng.pick(&[1, 63, 65]),
            2 => self.count_near_a_slot(),
            _ => SLOTS,
        };
        self.write(0x00C, count);
        for number in self.lists.clone() {
            let list = ListIndex::new(number).expect("the lists of an episode exist");
            self.write_token(list);
            if self.rng.chance(wealth.heads) {
                self.write_head(list);
            }
        }
        let blocks = self.rng.range(0, wealth.blocks);
        self.hand_blocks(blocks);
        for slot in self.slots.clone() {
            self.write_slot(slot);
        }
        if self.rng.chance(95) {
            self.enable();
        }
    }

    /// A second reset in the middle of things, with packets still in flight.
    pub fn restart(&mut self) {
        let flight = self.flight.clone();
        self.set_up(Wealth {
            blocks: 10,
            heads: 80,
        });
        self.flight = flight;
    }

    fn choose_slots_and_lists(&mut self) {
        let pool = self.rng.pick(&[4, 8, 64]);
        self.slots = (0..self.rng.range(2, 6))
            .map(|_| self.rng.below(pool))
            .collect();
        self.lists = (0..self.rng.range(1, 5))
            .map(|_| self.rng.below(pool))
            .collect();
        if self.rng.chance(90) {
            self.lists.push(0);
        }
        if self.rng.chance(20) {
            self.slots.push(63);
            self.lists.push(63);
        }
    }

    fn some_pcsr0(&mut self) -> u32 {
        let any = self.rng.below(4096);
        let node = self.rng.pick(&[7, 9, 0, 4095, any]);
        let incarnation = self.rng.below(16);
        incarnation << 16 | node
    }

    /// A reset, enabled or not; rarely with a bad value, which resets nothing.
    pub fn reset(&mut self) {
        let mut value = RESET | self.some_pcsr0();
        if self.rng.chance(60) {
            value |= ENABLE;
        }
        if self.rng.chance(5) {
            let bad = value | self.bad_pcsr0_bit();
            self.write(0, bad);
        }
        self.write(0, value);
        if self.rng.chance(90) {
            self.flight.clear();
        }
        if self.chance_to_look(40) {
            self.look_after_reset();
        }
    }

    fn bad_pcsr0_bit(&mut self) -> u32 {
        1 << self.rng.pick(&[12, 13, 14, 15, 20, 21, 22, 25, 28, 29])
    }

    /// Enables, keeping node and incarnation mostly.
    pub fn enable(&mut self) {
        let kept = self.machine.saved.pcsr0;
        let value = if self.rng.chance(70) {
            kept
        } else {
            self.some_pcsr0()
        };
        self.write(0, value | ENABLE);
    }

    /// Off for a few calls, or another node, or a bad value.
    pub fn power(&mut self) {
        match self.rng.below(4) {
            0 => {
                let bad = self.machine.saved.pcsr0 | self.bad_pcsr0_bit();
                self.write(0, bad);
            }
            1 => self.enable(),
            _ => {
                let off = self.machine.saved.pcsr0 & !ENABLE;
                self.write(0, off);
                for _ in 0..self.rng.range(1, 6) {
                    self.call_while_off();
                }
                self.write(0, off | ENABLE);
            }
        }
        if self.chance_to_look(50) {
            self.read(0);
        }
    }

    fn call_while_off(&mut self) {
        match self.rng.below(5) {
            0 => self.deliver(),
            1 => self.forge(),
            2 => self.send(),
            3 => self.take_some(),
            _ => self.garbage(),
        }
    }

    /// The slot count: mostly such that this episode's slots remain in it.
    pub fn write_slot_count(&mut self) {
        let count = match self.rng.below(8) {
            0 => self.count_near_a_slot(),
            1 => self.rng.pick(&[0, 1, 63, 65, 66, u32::MAX, 1 << 31]),
            _ => SLOTS,
        };
        self.write(0x00C, count);
        if self.chance_to_look(50) {
            self.read(0x00C);
        }
    }

    /// "slot at or above the count": one of this episode's slots is the count, or just below it.
    fn count_near_a_slot(&mut self) -> u32 {
        self.rng.pick(&self.slots) + self.rng.below(2)
    }

    pub fn write_list(&mut self) {
        let list = self.some_list();
        if self.rng.chance(50) {
            self.write_token(list);
        } else {
            self.write_head(list);
        }
    }

    /// Base, size, control and ack_note_index of one of the episode's slots.
    pub fn write_some_slot(&mut self) {
        let slot = self.rng.pick(&self.slots);
        match self.rng.below(4) {
            // only word 2, which zeroes what packets have stored
            0 => {
                let control = self.some_slot_control();
                self.put(Ram::Receive, 16 * slot as usize + 2, control);
            }
            1 => {
                let word = self.rng.below(16) as usize;
                let value = self.rng.wild_word();
                self.put(Ram::Receive, 16 * slot as usize + word, value);
                self.write_slot(slot);
            }
            _ => self.write_slot(slot),
        }
        if self.chance_to_look(30) {
            self.look_at_slot(slot);
        }
    }

    pub fn write_slot(&mut self, slot: u32) {
        let from = 16 * slot as usize;
        let (base, size) = self.some_buffer();
        let control = self.some_slot_control();
        let unused = if self.rng.chance(30) {
            self.rng.word() & 0xFFFF
        } else {
            0
        };
        let ack_list = self.some_note_index() << 16 | unused;
        self.put_run(Ram::Receive, from, &[base, size, control]);
        self.put(Ram::Receive, from + 6, ack_list);
    }

    /// Base and size, mostly inside the data memory, often just so, sometimes not.
    fn some_buffer(&mut self) -> (u32, u32) {
        let data = self.machine.data.len() as u32;
        let any = self.rng.range(0, data.min(2_000));
        let size = self
            .rng
            .pick(&[0, 4, 128, 132, 256, 300, 512, 512, 1_024, 2_048, any]);
        if size > data && self.rng.chance(80) {
            return (0, data);
        }
        let end_base = data.saturating_sub(size);
        match self.rng.below(20) {
            0 => (end_base + 1, size),
            1 => (end_base.wrapping_sub(1), size),
            2 => (self.rng.wild_word(), size),
            3 => (end_base, size.wrapping_sub(self.rng.below(2))),
            4 => (self.rng.range(0, end_base), self.rng.wild_word()),
            5..=8 => (end_base, size),
            9..=10 => (0, size),
            _ => (self.rng.range(0, end_base), size),
        }
    }

    /// "note_index 16, valid, indirect, do_acks, notify, reserve 12".
    fn some_slot_control(&mut self) -> u32 {
        let mut control = self.some_note_index() << 16;
        for (percent, bit) in [(94, 15), (2, 14), (55, 13), (75, 12)] {
            if self.rng.chance(percent) {
                control |= 1 << bit;
            }
        }
        if self.rng.chance(5) {
            control |= 1 << self.rng.below(12);
        }
        control
    }
}

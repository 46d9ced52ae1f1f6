//! Reading back: registers, RAM words, queues, notices; and registers that are none.

use super::driver::{page_register, pointer_register, Driver};
use crate::call::Call;
use crate::engine::layout::{ListIndex, LISTS_FROM, NEXT, NQR_FROM, PLACES_FROM, REST_FROM};
use crate::engine::{QueueName, Ram};
use crate::rng::Rng;

/// The registers that are not RAM.
const PLAIN: [u32; 11] = [
    0x000, 0x004, 0x008, 0x00C, 0x014, 0x018, 0x01C, 0x020, 0x024, 0x040, 0x080,
];

/// The first and the last of each range of RAM registers, and their neighbours.
const BORDERS: [u32; 8] = [0x0FC, 0x100, 0x1FC, 0x200, 0x2FC, 0x300, 0x3FC, 0x400];

/// Addresses between the registers that name none.
const GAPS: [u32; 8] = [0x010, 0x028, 0x03C, 0x04C, 0x07C, 0x08C, 0x0FC, 0x404];

/// Any 32-bit number as a register, mostly near those that are mapped.
pub fn any_register(rng: &mut Rng) -> u32 {
    let mapped = match rng.below(5) {
        0..=1 => rng.pick(&PLAIN),
        2 => rng.pick(&[0x044, 0x048, 0x084, 0x088]),
        _ => 0x100 + 4 * rng.below(0xC0),
    };
    match rng.below(14) {
        0 => rng.pick(&GAPS),
        1 => 4 * rng.below(0x110),
        2 => mapped + rng.range(1, 3),
        3 => mapped | 1 << rng.range(10, 31),
        4 => rng.word(),
        5..=6 => rng.pick(&BORDERS),
        _ => mapped,
    }
}

/// A value at one of the register's borders, or anything.
pub fn value_for_register(rng: &mut Rng, register: u32) -> u32 {
    let wild = rng.wild_word();
    match register {
        0x004 => rng.below(8) << 28,
        0x00C => rng.pick(&[0, 1, 63, 64, 65, 66, u32::MAX, wild]),
        0x040 => rng.pick(&[0, 2, 0xFFC, 0xFFD, 0x1000, wild]),
        0x080 => rng.pick(&[0, 1, 0x1FFC, 0x1FFF, 0x2000, wild]),
        _ => wild,
    }
}

impl Driver<'_> {
    pub fn look_at_slot(&mut self, slot: u32) {
        let from = 16 * slot as usize;
        match self.rng.below(3) {
            0 => self.get_run(Ram::Receive, from + 3, 3),
            1 => self.get_run(Ram::Receive, from + 3, 9),
            _ => {
                let word = from + self.rng.pick(&[3, 3, 4, 5, 7, 8, 11]);
                self.get(Ram::Receive, word);
            }
        }
    }

    pub fn look_at_descriptor(&mut self, number: usize) {
        let from = 16 * number;
        match self.rng.below(3) {
            0 => self.get_run(Ram::Send, from, 7),
            1 => {
                for word in [0, 3, 5] {
                    self.get(Ram::Send, from + word);
                }
            }
            _ => {
                for word in [4, 6] {
                    self.get(Ram::Send, from + word);
                }
            }
        }
    }

    pub fn look_at_counts(&mut self) {
        self.read(0x020);
        self.read(0x024);
    }

    pub fn look_after_reset(&mut self) {
        for _ in 0..self.rng.range(1, 6) {
            let register = self.rng.pick(&PLAIN);
            self.read(register);
        }
        let number = self.rng.index(4);
        self.look_at_descriptor(number);
        self.look_at_queue_words();
    }

    /// Words of the queues as RAM, about where entries are put and taken.
    pub fn look_at_queue_words(&mut self) {
        let name = self.rng.pick(&QueueName::ALL);
        let queue = self.machine.saved.queue(name);
        let near = self.rng.pick(&[queue.place, queue.place + queue.length]) + 254;
        for nth in 0..3 {
            let word = name.first_word() + (near + nth) as usize % 256;
            self.get(Ram::Receive, word);
        }
    }

    /// Head, token and reader's place of a list.
    pub fn look_at_list(&mut self) {
        let list = self.some_list();
        for word in [list.head_word(), list.token_word(), list.place_word()] {
            if self.rng.chance(70) {
                self.get(Ram::Receive, word);
            }
        }
    }

    pub fn look(&mut self) {
        match self.rng.below(7) {
            0 => self.look_at_counts(),
            1 => self.look_at_list(),
            2 => self.look_at_queue_words(),
            3 => {
                let number = self.rng.index(4);
                self.look_at_descriptor(number);
            }
            4 => {
                let slot = self.rng.pick(&self.slots);
                self.look_at_slot(slot);
            }
            5 => {
                self.read(0x004);
            }
            _ => {
                let register = self.rng.pick(&PLAIN);
                self.read(register);
            }
        }
    }

    /// Everything a register can show of a RAM, or half of it.
    pub fn audit(&mut self) {
        let ram = self.rng.pick(&[Ram::Send, Ram::Receive, Ram::Receive]);
        let words = ram.words() / 2;
        let from = self.rng.pick(&[0, words]);
        self.write(pointer_register(ram), 4 * from as u32);
        for _ in 0..words {
            self.read(pointer_register(ram) + 8);
        }
    }

    pub fn read_queues(&mut self) {
        let register = self.rng.pick(&[0x014, 0x014, 0x018]);
        for _ in 0..self.rng.pick(&[1, 1, 2, 5]) {
            self.read(register);
        }
    }

    /// PCSR1, written with all patterns of its bits.
    pub fn pcsr1(&mut self) {
        let value = match self.rng.below(4) {
            0 => self.rng.wild_word(),
            1 => !(1 << self.rng.range(28, 31)),
            _ => self.rng.below(4) << 29,
        };
        if self.rng.chance(60) {
            self.write(0x004, value);
        }
        if self.chance_to_look(70) {
            self.read(0x004);
        }
    }

    /// Pointers at every border and about it, steps over the end, pages.
    pub fn pointers(&mut self) {
        let ram = self.rng.pick(&[Ram::Send, Ram::Receive]);
        let end = 4 * ram.words() as u32;
        let any = 4 * self.rng.below(ram.words() as u32);
        let border = self.rng.pick(&[0, 4, 0xFC, 0x100, 0x1FC, 0x7FC]);
        let odd = any + self.rng.range(1, 3);
        let high = any | 1 << self.rng.range(13, 31);
        let value = self
            .rng
            .pick(&[any, border, end - 4, end - 4, end - 8, end, odd, high]);
        self.write(pointer_register(ram), value);
        for _ in 0..self.rng.range(1, 4) {
            let page = page_register(ram) + 4 * self.rng.below(64);
            let step = pointer_register(ram) + 8;
            let register = self.rng.pick(&[pointer_register(ram), page, step, step]);
            self.read(register);
        }
        self.read(pointer_register(ram));
    }

    /// A write to any word of Receive RAM, by region, most of them not allowed.
    pub fn poke(&mut self) {
        let word = match self.rng.below(6) {
            0 => self.rng.range(NQR_FROM as u32, PLACES_FROM as u32 - 1),
            1 => self.rng.range(PLACES_FROM as u32, REST_FROM as u32 - 1),
            2 => self.rng.range(REST_FROM as u32, 2047),
            3 => self.rng.range(LISTS_FROM as u32, NQR_FROM as u32 - 1),
            _ => self.rng.below(1024),
        } as usize;
        let value = self.rng.wild_word();
        self.put(Ram::Receive, word, value);
        if self.chance_to_look(50) {
            self.get(Ram::Receive, word);
            self.read(0x080);
        }
    }

    /// A read or a write of any register.
    pub fn any_register(&mut self) {
        let register = any_register(&mut self.rng);
        if self.rng.chance(60) {
            self.read(register);
        } else if register != 0 {
            let value = value_for_register(&mut self.rng, register);
            self.write(register, value);
        }
    }

    /// A kind that is none of the five.
    pub fn unknown_kind(&mut self) {
        let any = self.rng.range(6, 255);
        let kind = self.rng.pick(&[0, 6, 7, 0x81, 255, any]);
        self.perform(Call::Unknown { kind });
    }

    /// A packet longer than any.
    pub fn overlong(&mut self) {
        let length = self.rng.pick(&[169, 170, 171, 172, 176, 192]);
        let packet = self.rng.bytes(length);
        self.receive(packet);
    }

    /// Take: mostly a list of the episode, and one that has something to take if there is one.
    pub fn take_some(&mut self) {
        let has_notice = |list: &u32| {
            let list = ListIndex::new(*list).expect("the lists of an episode exist");
            let block = self.machine.block(self.machine.place(list));
            block.map_or(false, |block| self.machine.notices[block.word(NEXT)] != 0)
        };
        let filled: Vec<u32> = self.lists.iter().copied().filter(has_notice).collect();
        let list = match self.rng.below(20) {
            0 => self.rng.below(64),
            1 => self.rng.pick(&[63, 64, 65, 255, 1 << 31, u32::MAX]),
            2..=3 => self.rng.pick(&self.lists),
            _ if filled.is_empty() => self.rng.pick(&self.lists),
            _ => self.rng.pick(&filled),
        };
        self.take(list);
        if self.chance_to_look(20) {
            self.look_at_list();
        }
    }
}

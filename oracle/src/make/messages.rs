//! Messages programmed into descriptors, stopped, touched, and sent; their packets delivered, in
//! mixed order, twice, or damaged.

use super::driver::Driver;
use super::forge::{open_size, spoil};
use super::plans::{bend, plan, Goal};
use crate::call::Call;
use crate::draft::Draft;
use crate::engine::descriptor::{control1, Descriptor, CONTROL1, METADATA};
use crate::engine::layout::{ListIndex, DESCRIPTORS};
use crate::engine::{QueueName, Ram, Reply};

impl Driver<'_> {
    /// A goal, mostly one where the message will be taken.
    fn some_goal(&mut self) -> Goal {
        let slot = self.some_slot();
        let most = match open_size(&self.machine, slot) {
            Some(size) if self.rng.chance(93) => size,
            _ => 700,
        };
        Goal {
            slot,
            most,
            note_index: self.some_note_index(),
        }
    }

    /// A message that mostly goes, in a descriptor that is mostly idle.
    pub fn program(&mut self) {
        let goal = self.some_goal();
        let mut plan = plan(&self.machine, &mut self.rng, goal);
        if self.rng.chance(18) {
            bend(&mut plan, &self.machine, &mut self.rng);
        }
        self.write_plan(&plan);
    }

    /// A message at an edge of the go rule.
    pub fn program_edge(&mut self) {
        let goal = self.some_goal();
        let mut plan = plan(&self.machine, &mut self.rng, goal);
        for _ in 0..self.rng.range(1, 2) {
            bend(&mut plan, &self.machine, &mut self.rng);
        }
        self.write_plan(&plan);
    }

    fn is_active(&self, number: usize) -> bool {
        Descriptor::of(&self.machine.send_ram, number).is_active()
    }

    fn write_plan(&mut self, plan: &Descriptor) {
        let idle: Vec<usize> = (0..DESCRIPTORS).filter(|&n| !self.is_active(n)).collect();
        if idle.is_empty() && self.rng.chance(85) {
            return self.send();
        }
        let number = if idle.is_empty() || self.rng.chance(3) {
            self.rng.index(DESCRIPTORS)
        } else {
            self.rng.pick(&idle)
        };
        let from = 16 * number;
        for word in [0, 1, 2, 3, 8, 9, 10, 11] {
            let same = self.machine.send_ram[from + word] == plan.words[word];
            let idle = word >= METADATA && !plan.has_metadata();
            if !(same || idle) || self.rng.chance(6) {
                self.put(Ram::Send, from + word, plan.words[word]);
            }
        }
        let answer = self.put(Ram::Send, from + CONTROL1, plan.words[CONTROL1]);
        if self.chance_to_look(if answer.reply == Reply::Done { 20 } else { 5 }) {
            self.look_at_descriptor(number);
        }
    }

    /// Any write to any word of a descriptor, active or not.
    pub fn touch_descriptor(&mut self) {
        let number = self.rng.index(DESCRIPTORS);
        let word = self.rng.index(16);
        let value = match self.rng.below(3) {
            0 => self.machine.send_ram[16 * number + word],
            1 => self.rng.wild_word() & !control1::GO,
            _ => self.rng.wild_word() | control1::GO,
        };
        self.put(Ram::Send, 16 * number + word, value);
        if self.chance_to_look(30) {
            self.look_at_descriptor(number);
        }
    }

    /// "control1 with go 0", and perhaps go again.
    pub fn stop_descriptor(&mut self) {
        let number = self.rng.index(DESCRIPTORS);
        let word = self.machine.send_ram[16 * number + CONTROL1];
        self.put(Ram::Send, 16 * number + CONTROL1, word & !control1::GO);
        if self.chance_to_look(40) {
            self.look_at_descriptor(number);
        }
        if self.rng.chance(50) {
            self.put(Ram::Send, 16 * number + CONTROL1, word | control1::GO);
            if self.chance_to_look(40) {
                self.look_at_descriptor(number);
            }
        }
    }

    /// A few DIO words.
    pub fn write_dio(&mut self) {
        let word = self.rng.range(64, 1016) as usize;
        let values: Vec<u32> = (0..self.rng.range(1, 8)).map(|_| self.rng.word()).collect();
        self.put_run(Ram::Send, word, &values);
        if self.chance_to_look(20) {
            self.get_run(Ram::Send, word, values.len());
        }
    }

    /// "first number 1: fabric ready", anything else not.
    pub fn send(&mut self) {
        let first = if self.rng.chance(86) {
            1
        } else {
            self.rng
                .pick(&[0, 2, 3, 0x101, 0x0100_0000, 0x8000_0001, u32::MAX])
        };
        let answer = self.perform(Call::Send { first });
        let went = matches!(answer.reply, Reply::Done | Reply::Fabric);
        if went && self.chance_to_look(35) {
            let number = self.machine.saved.last_sender as usize;
            self.look_at_descriptor(number);
        }
        if answer.reply == Reply::Stalled && self.rng.chance(40) {
            self.unstall();
        }
    }

    /// Gives active descriptors what they may be waiting for.
    fn unstall(&mut self) {
        match self.rng.below(4) {
            0 => self.hand_blocks(2),
            1 => self.settle(),
            2 => self.stop_descriptor(),
            _ => {
                for number in 0..DESCRIPTORS {
                    let descriptor = Descriptor::of(&self.machine.send_ram, number);
                    let list = ListIndex::new(descriptor.note_index());
                    let list = list.filter(|&list| self.machine.head(list) == 0);
                    if let Some(list) = list.filter(|_| descriptor.is_active()) {
                        self.write_head(list);
                    }
                }
            }
        }
    }

    /// What a driver of the station does after an interrupt: both queues read to their end,
    /// interrupt bits cleared.
    pub fn settle(&mut self) {
        for (register, name) in [(0x014, QueueName::Nqr), (0x018, QueueName::Aqr)] {
            for _ in 0..self.machine.saved.queue(name).length.min(40) {
                self.read(register);
            }
        }
        let value = self.rng.below(4) << 29 & self.rng.pick(&[0, u32::MAX]);
        self.write(0x004, value);
        if self.rng.chance(50) {
            self.forge();
        }
    }

    /// A packet in flight arrives: mostly the first, mostly whole.
    pub fn deliver(&mut self) {
        if self.flight.is_empty() {
            return self.forge();
        }
        let place = if self.rng.chance(60) {
            0
        } else {
            self.rng.index(self.flight.len())
        };
        let mut packet = if self.rng.chance(90) {
            self.flight.remove(place)
        } else {
            self.flight[place].clone()
        };
        let slot = u32::from(packet[4]) << 8 | u32::from(packet[5]);
        match self.rng.below(10) {
            0 => packet = self.damaged(packet),
            1 => packet = self.altered(packet),
            _ => {}
        }
        self.receive_and_look(packet, slot);
    }

    /// With other fields and the checks computed again.
    fn altered(&mut self, packet: Vec<u8>) -> Vec<u8> {
        match Draft::of(&packet) {
            Some(mut draft) => {
                spoil(&self.machine, &mut self.rng, &mut draft);
                draft.encode()
            }
            None => packet,
        }
    }
}

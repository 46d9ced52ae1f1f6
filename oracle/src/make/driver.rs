//! The driver: performs calls on the oracle's engine and has them recorded.

use crate::call::{Call, Rooms};
use crate::engine::layout::ListIndex;
use crate::engine::{Answer, Machine, Ram, Reply};
use crate::rng::Rng;

/// Writes calls down.
pub trait Recorder {
    /// Sees a call, and the state it will meet.
    fn record(&mut self, before: &Machine, call: &Call);

    /// Whether enough has been written.
    fn is_full(&self) -> bool;

    /// Whether reading the state back is worth its calls.
    fn likes_looks(&self) -> bool;
}

/// The most packets kept for later delivery.
const FLIGHT_MOST: usize = 24;

pub struct Driver<'a> {
    pub machine: Machine,
    pub rng: Rng,
    /// Packets sent and not yet delivered.
    pub flight: Vec<Vec<u8>>,
    /// The slots and lists this episode plays with.
    pub slots: Vec<u32>,
    pub lists: Vec<u32>,
    recorder: &'a mut dyn Recorder,
    rooms: Rooms,
}

/// The calls.
impl<'a> Driver<'a> {
    pub fn new(machine: Machine, rng: Rng, recorder: &'a mut dyn Recorder) -> Driver<'a> {
        Driver {
            machine,
            rng,
            flight: Vec::new(),
            slots: vec![0],
            lists: vec![0],
            recorder,
            rooms: Rooms::default(),
        }
    }

    pub fn is_over(&self) -> bool {
        self.recorder.is_full()
    }

    pub fn perform(&mut self, call: Call) -> Answer {
        self.recorder.record(&self.machine, &call);
        let answer = call.run(&mut self.machine, &mut self.rooms);
        if matches!(call, Call::Send { .. }) && answer.reply == Reply::Done {
            self.keep_in_flight(answer.value as usize);
        }
        answer
    }

    fn keep_in_flight(&mut self, length: usize) {
        if self.flight.len() == FLIGHT_MOST {
            self.flight.remove(0);
        }
        self.flight.push(self.rooms.packet[..length].to_vec());
    }

    pub fn write(&mut self, register: u32, value: u32) -> Answer {
        self.perform(Call::Write { register, value })
    }

    pub fn read(&mut self, register: u32) -> Answer {
        self.perform(Call::Read { register })
    }

    pub fn receive(&mut self, packet: Vec<u8>) -> Answer {
        self.perform(Call::Receive { packet })
    }

    pub fn take(&mut self, list: u32) -> Answer {
        self.perform(Call::Take { list })
    }

    /// True this many times in a hundred, if looks are wanted at all.
    pub fn chance_to_look(&mut self, percent: u32) -> bool {
        self.recorder.likes_looks() && self.rng.chance(percent)
    }
}

/// Words of the RAMs, reached by any of the addresses that lead to them.
impl Driver<'_> {
    pub fn put(&mut self, ram: Ram, word: usize, value: u32) -> Answer {
        let register = self.register_reaching(ram, word);
        self.write(register, value)
    }

    pub fn get(&mut self, ram: Ram, word: usize) -> Answer {
        let register = self.register_reaching(ram, word);
        self.read(register)
    }

    /// Words one after the other, mostly by the stepping register.
    pub fn put_run(&mut self, ram: Ram, word: usize, values: &[u32]) {
        if self.rng.chance(70) {
            self.write(pointer_register(ram), 4 * word as u32);
            for &value in values {
                self.write(pointer_register(ram) + 8, value);
            }
        } else {
            for (place, &value) in values.iter().enumerate() {
                self.put(ram, word + place, value);
            }
        }
    }

    pub fn get_run(&mut self, ram: Ram, word: usize, count: usize) {
        if self.rng.chance(70) {
            self.write(pointer_register(ram), 4 * word as u32);
            for _ in 0..count {
                self.read(pointer_register(ram) + 8);
            }
        } else {
            for place in word..word + count {
                self.get(ram, place);
            }
        }
    }

    /// A register that reaches the word, after setting the pointer if need be.
    fn register_reaching(&mut self, ram: Ram, word: usize) -> u32 {
        let address = 4 * word as u32;
        if ram == Ram::Send && word < 64 && self.rng.chance(70) {
            return 0x100 + address;
        }
        let page = page_register(ram) + (address & 0xFF);
        let same_page = self.pointer(ram) & !0xFF == address & !0xFF;
        if same_page && self.rng.chance(60) {
            return page;
        }
        if self.rng.chance(30) {
            let elsewhere = address & !0xFF | (4 * self.rng.below(64));
            self.write(pointer_register(ram), elsewhere);
            return page;
        }
        if self.pointer(ram) != address || self.rng.chance(10) {
            self.write(pointer_register(ram), address);
        }
        pointer_register(ram) + self.rng.pick(&[4, 8])
    }

    pub fn pointer(&self, ram: Ram) -> u32 {
        match ram {
            Ram::Send => self.machine.saved.send_pointer,
            Ram::Receive => self.machine.saved.receive_pointer,
        }
    }
}

/// "Send RAM: pointer 0x040 [...] Receive RAM the same at 0x080".
pub fn pointer_register(ram: Ram) -> u32 {
    match ram {
        Ram::Send => 0x040,
        Ram::Receive => 0x080,
    }
}

pub fn page_register(ram: Ram) -> u32 {
    match ram {
        Ram::Send => 0x200,
        Ram::Receive => 0x300,
    }
}

/// What the episode plays with.
impl Driver<'_> {
    /// Mostly one of this episode's slots, now and then any number.
    pub fn some_slot(&mut self) -> u32 {
        if self.rng.chance(92) {
            self.rng.pick(&self.slots)
        } else {
            let any = self.rng.below(70);
            self.rng.pick(&[any, 63, 64, 65_535])
        }
    }

    /// A list that exists: mostly one of this episode's.
    pub fn some_list(&mut self) -> ListIndex {
        let number = if self.rng.chance(92) {
            self.rng.pick(&self.lists)
        } else {
            self.rng.below(64)
        };
        ListIndex::new(number).expect("the lists of an episode exist")
    }

    /// A note_index: mostly a list that exists.
    pub fn some_note_index(&mut self) -> u32 {
        match self.rng.below(40) {
            0 => 64,
            1 => self.rng.pick(&[63, 65, 128, 65_535]),
            _ => self.some_list().number(),
        }
    }
}

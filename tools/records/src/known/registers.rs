//! 01, "Registers": what writes and reads that were done tell.

use super::Known;
use crate::fields::{part, CONTROL1, PCSR1};
use crate::places::{place, Place};
use crate::registers::{decode, Ram, Register};

impl Known {
    pub fn pointer(&self, ram: Ram) -> Option<u32> {
        match ram {
            Ram::Send => self.send_pointer,
            Ram::Receive => self.receive_pointer,
        }
    }

    fn set_pointer(&mut self, ram: Ram, value: Option<u32>) {
        match ram {
            Ram::Send => self.send_pointer = value,
            Ram::Receive => self.receive_pointer = value,
        }
    }

    /// The RAM that a register reaches, and its byte there if the pointer is known.
    pub fn reached(&self, register: u32) -> Option<(Ram, Option<u32>)> {
        match decode(register)? {
            Register::Descriptor(word) => Some((Ram::Send, Some(4 * word as u32))),
            Register::Word(ram) | Register::WordThenStep(ram) => Some((ram, self.pointer(ram))),
            // "pages: the pointer with its low byte replaced"
            Register::Page(ram, low) => {
                Some((ram, self.pointer(ram).map(|pointer| pointer & !0xFF | low)))
            }
            _ => None,
        }
    }

    /// The RAM word that a register reaches, if it reaches one and the pointer is known.
    pub fn place(&self, register: u32) -> Option<Place> {
        let (ram, byte) = self.reached(register)?;
        byte.map(|byte| place(ram, byte))
    }

    pub(super) fn written(&mut self, register: u32, value: u32) {
        match decode(register) {
            Some(Register::Pcsr0) if value >> 31 == 1 => *self = Known::after_reset(value),
            Some(Register::Pcsr0) => self.pcsr0 = Some(value),
            Some(Register::SlotCount) => self.slot_count = Some(value),
            Some(Register::Nbqr) => {
                self.nbqr = self.nbqr.map(|count| count + 1);
                self.hand_over(value);
            }
            Some(Register::Pointer(ram)) => self.set_pointer(ram, Some(value)),
            _ => self.word_written(register, value),
        }
    }

    fn word_written(&mut self, register: u32, value: u32) {
        match (self.place(register), self.reached(register)) {
            (Some(place), _) => self.store(place, value),
            // Some word was written, and it is not known which.
            (None, Some((ram, None))) => self.forget(ram),
            _ => {}
        }
        self.step(register);
    }

    /// "word then pointer plus 4"; "returns to 0 after the last word".
    fn step(&mut self, register: u32) {
        if let Some(Register::WordThenStep(ram)) = decode(register) {
            let next = self
                .pointer(ram)
                .map(|pointer| pointer.wrapping_add(4) % ram.bytes());
            self.set_pointer(ram, next);
        }
    }

    fn store(&mut self, place: Place, value: u32) {
        match place {
            Place::Descriptor(number, word) => {
                let words = &mut self.descriptors[number];
                words[word] = Some(value);
                // "It sets bytes_to_go to msg_size and clears stalled and done."
                if word == 5 && part(value, CONTROL1, "go") == 1 {
                    words[4] = Some(part(value, CONTROL1, "msg_size"));
                    words[6] = words[6].map(|status2| status2 & !0x6000_0000);
                }
            }
            Place::Slot(slot, word) => {
                let words = &mut self.slots[slot];
                words[word] = Some(value);
                // "Writing slot word 2 zeroes words 3, 4, 5 and 7 to 11 (H)."
                if word == 2 {
                    for zeroed in [3, 4, 5, 7, 8, 9, 10, 11] {
                        words[zeroed] = Some(0);
                    }
                }
            }
            Place::Head(list) => {
                self.heads[list] = Some(true);
                self.hand_over(value);
            }
            Place::Token(list) => self.tokens[list] = Some(value),
            _ => {}
        }
    }

    fn forget(&mut self, ram: Ram) {
        let nothing = Known::nothing();
        match ram {
            Ram::Send => self.descriptors = nothing.descriptors,
            Ram::Receive => {
                self.slots = nothing.slots;
                self.tokens = nothing.tokens;
                self.heads = nothing.heads;
            }
        }
    }

    /// A read that was done tells what stands there.
    pub(super) fn was_read(&mut self, register: u32, value: u32) {
        // "A read of NQR or AQR removes the oldest entry; an empty queue reads 0."
        let removed = |count: Option<u32>| match value {
            0 => Some(0),
            _ => count.map(|count| count.saturating_sub(1)),
        };
        match decode(register) {
            Some(Register::Pcsr0) => self.pcsr0 = Some(value),
            Some(Register::Pcsr1) if part(value, PCSR1, "nbqr_empty") == 1 => self.nbqr = Some(0),
            Some(Register::Pcsr1) if part(value, PCSR1, "nbqr_full") == 1 => self.nbqr = Some(256),
            Some(Register::SlotCount) => self.slot_count = Some(value),
            Some(Register::Nqr) => self.nqr = removed(self.nqr),
            Some(Register::Aqr) => self.aqr = removed(self.aqr),
            Some(Register::Pointer(ram)) => self.set_pointer(ram, Some(value)),
            _ => {}
        }
        match self.place(register) {
            Some(Place::Descriptor(number, word)) => self.descriptors[number][word] = Some(value),
            Some(Place::Slot(slot, word)) => self.slots[slot][word] = Some(value),
            Some(Place::Head(list)) => self.heads[list] = Some(value != 0),
            Some(Place::Token(list)) => self.tokens[list] = Some(value),
            _ => {}
        }
        self.step(register);
    }
}

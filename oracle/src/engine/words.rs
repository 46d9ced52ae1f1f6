//! The words of the two RAMs as registers reach them. 01: "A RAM word keeps its rules by every
//! address."

use super::descriptor::{control1, status2, Descriptor, BYTES_TO_GO, CONTROL1, STATUS2};
use super::layout::*;
use super::machine::Machine;
use super::map::{Ram, Register};
use super::reply::Reply;
use super::slot;
use crate::wrong::Wrong;

impl Machine {
    pub(super) fn read_ram(&mut self, register: Register) -> u32 {
        let (ram, word) = self.word_of(register);
        let value = match ram {
            Ram::Send => self.send_ram[word],
            Ram::Receive => self.receive_ram[word],
        };
        self.step_after(register);
        value
    }

    pub(super) fn write_ram(&mut self, register: Register, value: u32) -> Result<(), Reply> {
        let (ram, word) = self.word_of(register);
        let result = match ram {
            Ram::Send => self.write_send_word(word, value),
            Ram::Receive => self.write_receive_word(word, value),
        };
        // A refusal alters nothing, so the pointer moves only on done.
        if result.is_ok() || self.errs(Wrong::PointerMovesOnRefusal) {
            self.step_after(register);
        }
        result
    }

    /// The RAM word that a register of a RAM reaches.
    fn word_of(&mut self, register: Register) -> (Ram, usize) {
        let (ram, address) = match register {
            Register::Descriptor(word) => (Ram::Send, 4 * word as u32),
            Register::Word(ram) | Register::WordThenStep(ram) => (ram, *self.pointer(ram)),
            // "pages: the pointer with its low byte replaced"
            Register::Page(ram, low) if self.errs(Wrong::PageKeepsLowByte) => {
                (ram, *self.pointer(ram) | low)
            }
            Register::Page(ram, low) => (ram, *self.pointer(ram) & !0xFF | low),
            _ => unreachable!("{register:?} is not a register of a RAM"),
        };
        (ram, address as usize / 4)
    }

    pub(super) fn pointer(&mut self, ram: Ram) -> &mut u32 {
        match ram {
            Ram::Send => &mut self.saved.send_pointer,
            Ram::Receive => &mut self.saved.receive_pointer,
        }
    }

    /// "word then pointer plus 4"; "returns to 0 after the last word".
    fn step_after(&mut self, register: Register) {
        if let Register::WordThenStep(ram) = register {
            let pointer = self.pointer(ram);
            *pointer = (*pointer + 4) % (4 * ram.words() as u32);
        }
    }

    fn write_send_word(&mut self, word: usize, value: u32) -> Result<(), Reply> {
        if word < DESCRIPTORS * DESCRIPTOR_WORDS {
            self.write_descriptor_word(word / DESCRIPTOR_WORDS, word % DESCRIPTOR_WORDS, value)
        } else {
            self.send_ram[word] = value;
            Ok(())
        }
    }

    fn write_descriptor_word(
        &mut self,
        number: usize,
        word: usize,
        value: u32,
    ) -> Result<(), Reply> {
        // "Read-only: [...] descriptor words 4, 6, 7, 12 to 15"
        if matches!(word, 4 | 6 | 7 | 12..=15) {
            return Err(Reply::ReadOnly);
        }
        let goes = word == CONTROL1 && value & control1::GO != 0;
        let stops = word == CONTROL1 && value & control1::GO == 0;
        let mut descriptor = Descriptor::of(&self.send_ram, number);
        let was_active = descriptor.is_active();
        descriptor.words[word] = value;
        let size = descriptor.msg_size();
        let data_bytes = self.data.len() as u64;
        let good = !goes || descriptor.keeps_go_rule(size, data_bytes, self.wrong);
        if self.errs(Wrong::GoRuleBeforeActive) && !good {
            return Err(Reply::BadValue);
        }
        // "Writes to an active descriptor answer active, except control1 with go 0."
        if was_active && !stops {
            return Err(Reply::Active);
        }
        if !good {
            return Err(Reply::BadValue);
        }
        self.store_descriptor_word(number, word, value, goes);
        Ok(())
    }

    /// With go 1: "It sets bytes_to_go to msg_size and clears stalled and done. With go 0 the
    /// word is stored, no more."
    fn store_descriptor_word(&mut self, number: usize, word: usize, value: u32, goes: bool) {
        let from = number * DESCRIPTOR_WORDS;
        self.send_ram[from + word] = value;
        if goes {
            self.send_ram[from + BYTES_TO_GO] = value & control1::MSG_SIZE;
            let cleared = match self.wrong {
                Some(Wrong::GoClearsStatus2) => u32::MAX,
                Some(Wrong::GoKeepsStalled) => status2::DONE,
                _ => status2::STALLED | status2::DONE,
            };
            self.send_ram[from + STATUS2] &= !cleared;
        }
    }

    fn write_receive_word(&mut self, word: usize, value: u32) -> Result<(), Reply> {
        if word < LISTS_FROM {
            self.write_slot_word(word / SLOT_WORDS, word % SLOT_WORDS, value)
        } else if word >= NQR_FROM {
            // "Read-only: [...] queues, reader's places and the rest"
            Err(Reply::ReadOnly)
        } else if word % 2 == 0 {
            self.write_head(word, value)
        } else {
            self.write_token(word, value)
        }
    }

    /// "Read-only: [...] slot words other than 0, 1, 2, 6". "Writing slot word 2 zeroes words 3,
    /// 4, 5 and 7 to 11 (H)."
    fn write_slot_word(&mut self, slot: usize, word: usize, value: u32) -> Result<(), Reply> {
        if !matches!(word, 0 | 1 | 2 | 6) {
            return Err(Reply::ReadOnly);
        }
        let from = slot * SLOT_WORDS;
        self.receive_ram[from + word] = value;
        if word == slot::CONTROL && !self.errs(Wrong::SlotWord2KeepsRest) {
            for zeroed in [3, 4, 5, 7, 8, 9, 10, 11] {
                self.receive_ram[from + zeroed] = 0;
            }
        }
        Ok(())
    }

    /// "Read-only: [...] a head that is not 0. A head otherwise takes what NBQR takes, and sets
    /// the reader's place too."
    fn write_head(&mut self, word: usize, value: u32) -> Result<(), Reply> {
        if self.receive_ram[word] != 0 {
            return Err(Reply::ReadOnly);
        }
        let block = self.fresh_block(value).ok_or(Reply::BadValue)?;
        self.receive_ram[word] = block.address();
        let list = (word - LISTS_FROM) / 2;
        if !self.errs(Wrong::HeadLeavesPlace) {
            self.receive_ram[PLACES_FROM + list] = block.address();
        }
        Ok(())
    }

    /// "A token word with enqueue 1 and token 0 is a bad value (H)."
    fn write_token(&mut self, word: usize, value: u32) -> Result<(), Reply> {
        if value == 1 {
            return Err(Reply::BadValue);
        }
        self.receive_ram[word] = value;
        Ok(())
    }

    /// "a block address whose next word is 0".
    pub(super) fn fresh_block(&self, address: u32) -> Option<BlockAddress> {
        self.block(address)
            .filter(|block| self.notices[block.word(NEXT)] == 0)
    }

    /// Reset "clears [...] descriptors (status2 then 0x20000000)".
    pub(super) fn clear_descriptors(&mut self) {
        self.send_ram[..DESCRIPTORS * DESCRIPTOR_WORDS].fill(0);
        for number in 0..DESCRIPTORS {
            self.send_ram[number * DESCRIPTOR_WORDS + STATUS2] = status2::DONE;
        }
    }
}

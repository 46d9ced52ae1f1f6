//! 01, "Registers": the calls write and read.

use super::layout::SLOTS;
use super::machine::Machine;
use super::map::{decode, Ram, Register};
use super::reply::{Answer, Outcome, Reply};
use super::saved::{Queue, QueueName, Saved};
use super::sound::{is_pointer, PCSR0_NEVER, PCSR0_RESET};
use crate::wrong::Wrong;

impl Machine {
    pub(super) fn try_read(&mut self, address: u32) -> Outcome {
        self.check_sizes_and_sound()?;
        let register = decode(address).ok_or(Reply::NoRegister)?;
        let value = match register {
            Register::Pcsr0 => self.saved.pcsr0,
            Register::Pcsr1 => self.pcsr1(),
            // "NLHR, reads 0x1000"
            Register::Nlhr => 0x1000,
            Register::SlotCount => self.saved.slot_count,
            Register::Nqr => self.read_queue(QueueName::Nqr),
            Register::Aqr => self.read_queue(QueueName::Aqr),
            // "NBQR, reads 0"
            Register::Nbqr => 0,
            Register::Taken => self.saved.taken,
            Register::Faulted => self.saved.faulted,
            Register::Pointer(ram) => *self.pointer(ram),
            Register::Word(_)
            | Register::WordThenStep(_)
            | Register::Descriptor(_)
            | Register::Page(..) => self.read_ram(register),
        };
        Ok(Answer::done(value, 0))
    }

    /// "A PCSR0 write with reset skips 14."
    pub(super) fn try_write(&mut self, address: u32, value: u32) -> Outcome {
        self.check_sizes()?;
        let resets = address == 0 && value & PCSR0_RESET != 0;
        if !resets || self.errs(Wrong::ResetNeedsSound) {
            self.check_sound()?;
        }
        match decode(address).ok_or(Reply::NoRegister)? {
            Register::Pcsr0 => self.write_pcsr0(value)?,
            Register::Pcsr1 => self.write_pcsr1(value),
            // "Read-only: NLHR, NQR, AQR, both counts"
            Register::Nlhr
            | Register::Nqr
            | Register::Aqr
            | Register::Taken
            | Register::Faulted => return Err(Reply::ReadOnly),
            Register::SlotCount => self.write_slot_count(value)?,
            Register::Nbqr => self.write_nbqr(value)?,
            Register::Pointer(ram) => self.write_pointer(ram, value)?,
            register => self.write_ram(register, value)?,
        }
        Ok(Answer::done(0, 0))
    }

    /// "PCSR1: ready (1), int_hi, int_lo, idle (1), nbqr_empty, nbqr_full, 6 zero, 4 bits
    /// holding 4, 16 zero."
    fn pcsr1(&self) -> u32 {
        let empty = u32::from(self.saved.nbqr.is_empty());
        let full = u32::from(self.saved.nbqr.is_full());
        1 << 31
            | self.saved.int_hi << 30
            | self.saved.int_lo << 29
            | 1 << 28
            | empty << 27
            | full << 26
            | 4 << 16
    }

    /// "A write clears int_hi or int_lo where its bit is 0; nothing else."
    fn write_pcsr1(&mut self, value: u32) {
        let hi = value >> 30 & 1;
        let lo = value >> 29 & 1;
        if self.errs(Wrong::Pcsr1SetsBits) {
            self.saved.int_hi = hi;
            self.saved.int_lo = lo;
        } else {
            self.saved.int_hi &= hi;
            self.saved.int_lo &= lo;
        }
    }

    /// "A read of NQR or AQR removes the oldest entry; an empty queue reads 0."
    fn read_queue(&mut self, name: QueueName) -> u32 {
        if self.saved.queue(name).is_empty() {
            0
        } else {
            self.remove(name)
        }
    }

    fn write_pcsr0(&mut self, value: u32) -> Result<(), Reply> {
        if value & PCSR0_NEVER != 0 {
            return Err(Reply::BadValue);
        }
        if value & PCSR0_RESET != 0 {
            self.reset();
        }
        // "the other fields are stored with reset 0"
        self.saved.pcsr0 = value & !PCSR0_RESET;
        Ok(())
    }

    /// "Reset clears Receive RAM, notice memory, descriptors (status2 then 0x20000000), counts,
    /// pointers, slot count, interrupt bits [...] DIO and data memory stay. Last sender becomes
    /// 3."; "reset sets place and length to 0".
    fn reset(&mut self) {
        let kept_aqr = match self.wrong {
            Some(Wrong::ResetKeepsAqrLength) => self.saved.aqr.length.min(256),
            _ => 0,
        };
        self.receive_ram.fill(0);
        self.notices.fill(0);
        self.clear_descriptors();
        self.saved = Saved {
            aqr: Queue {
                place: 0,
                length: kept_aqr,
            },
            last_sender: 3,
            ..Saved::default()
        };
    }

    /// "slot count 0 to 64 (H)".
    fn write_slot_count(&mut self, value: u32) -> Result<(), Reply> {
        if value > SLOTS {
            return Err(Reply::BadValue);
        }
        self.saved.slot_count = value;
        Ok(())
    }

    /// "NBQR takes a block address whose next word is 0; anything else is a bad value."
    /// full: "NBQR write [...] with 256 waiting".
    fn write_nbqr(&mut self, value: u32) -> Result<(), Reply> {
        let full = self.saved.nbqr.is_full();
        if self.errs(Wrong::FullBeforeBadValue) && full {
            return Err(Reply::Full);
        }
        let block = self.fresh_block(value).ok_or(Reply::BadValue)?;
        if full {
            return Err(Reply::Full);
        }
        self.push(QueueName::Nbqr, block.address());
        Ok(())
    }

    /// "A pointer is a multiple of 4 inside its RAM (else bad-value)".
    fn write_pointer(&mut self, ram: Ram, value: u32) -> Result<(), Reply> {
        if !is_pointer(value, ram.words()) {
            return Err(Reply::BadValue);
        }
        *self.pointer(ram) = value;
        Ok(())
    }
}

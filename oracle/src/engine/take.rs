//! 01: "Take: copies the reader's block to 8 lent words, zeroes its next, moves the reader's
//! place to that next, returns the block to NBQR."

use super::layout::{BlockAddress, ListIndex, BLOCK_WORDS, NEXT};
use super::machine::Machine;
use super::reply::{Answer, Outcome, Reply};
use super::saved::QueueName;
use crate::wrong::Wrong;

impl Machine {
    pub(super) fn try_take(&mut self, list: u32, room: &mut [u32]) -> Outcome {
        self.check_sizes_and_sound()?;
        // bad-value: "list 64 or more"
        let list = ListIndex::new(list).ok_or(Reply::BadValue)?;
        if self.errs(Wrong::TakeNeedsEnable) {
            self.check_enabled()?;
        }
        // short: "notice room below 8 words"
        if room.len() < BLOCK_WORDS {
            return Err(Reply::Short);
        }
        let (block, next) = self.block_to_take(list)?;
        let from = block.word(0);
        room[..BLOCK_WORDS].copy_from_slice(&self.notices[from..from + BLOCK_WORDS]);
        if !self.errs(Wrong::TakeLeavesNext) {
            self.notices[block.word(NEXT)] = 0;
        }
        self.receive_ram[list.place_word()] = next;
        self.push(QueueName::Nbqr, block.address());
        // "Value is 0 except: [...] a taken word 0"
        Ok(Answer::done(room[0], 0))
    }

    /// The reader's block and its next.
    fn block_to_take(&self, list: ListIndex) -> Result<(BlockAddress, u32), Reply> {
        let full = self.saved.nbqr.is_full();
        if self.errs(Wrong::TakeFullBeforeEmpty) && full {
            return Err(Reply::Full);
        }
        // empty: "take: place 0 or next 0"
        let block = self.block(self.place(list)).ok_or(Reply::Empty)?;
        let next = self.notices[block.word(NEXT)];
        if next == 0 {
            return Err(Reply::Empty);
        }
        // "A take whose next is neither 0 nor a block address is 14 in place of full."
        let full_first = self.errs(Wrong::TakeFullBeforeBadNext) && full;
        if self.block(next).is_none() && !full_first {
            return Err(Reply::Unsound);
        }
        // full: "take with 256 waiting"
        if full {
            return Err(Reply::Full);
        }
        Ok((block, next))
    }
}

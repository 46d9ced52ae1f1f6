//! 01, "Notices and interrupts": what a notice holds, posting, and the interrupts.

use super::layout::{ListIndex, NEXT};
use super::machine::Machine;
use super::reply::Reply;
use super::saved::QueueName;
use crate::wrong::Wrong;

/// "Interrupts, summed".
pub const INTERRUPT_AQR: u32 = 1;
pub const INTERRUPT_NQR: u32 = 2;
pub const INTERRUPT_NBQR: u32 = 4;

/// A notice without its next: words 0 to 2, and words 4 to 7 (metadata or zeros).
#[derive(Clone, Copy, Debug, Default)]
pub struct Notice {
    pub words: [u32; 3],
    pub metadata: [u32; 4],
}

impl Machine {
    fn enqueues(&self, list: ListIndex) -> bool {
        self.token(list) & 1 == 1
    }

    /// "It needs a set head, NBQR not empty, and NQR not full when enqueuing."
    pub(super) fn can_post(&self, list: ListIndex) -> bool {
        let nqr_room = !self.enqueues(list) || !self.saved.nqr.is_full();
        self.head_and_next_there(list) && nqr_room
    }

    fn head_and_next_there(&self, list: ListIndex) -> bool {
        self.head(list) != 0 && !self.saved.nbqr.is_empty()
    }

    /// stalled: "a needed notice [...] has no room".
    pub(super) fn need_post(&mut self, list: ListIndex, notice: &Notice) -> Result<(), Reply> {
        if self.can_post(list) {
            return Ok(());
        }
        if self.errs(Wrong::FillsBeforeNqrFull) && self.head_and_next_there(list) {
            let next = self.receive_ram[self.entry_word(QueueName::Nbqr, 0)];
            self.fill(list, notice, next);
        }
        Err(Reply::Stalled)
    }

    /// "Posting fills the head block, takes the oldest NBQR block as next and as new head, and
    /// with enqueue pushes the token (31 bits) on NQR." Returns the interrupts.
    pub(super) fn post(&mut self, list: ListIndex, notice: &Notice) -> u32 {
        let next = if self.errs(Wrong::NewestBlock) {
            self.remove_newest_block()
        } else {
            self.remove(QueueName::Nbqr)
        };
        self.fill(list, notice, next);
        self.receive_ram[list.head_word()] = next;
        // "4, NBQR became empty by posting"
        let mut interrupts = 0;
        if self.saved.nbqr.is_empty() {
            interrupts |= INTERRUPT_NBQR;
        }
        if self.enqueues(list) {
            interrupts |= self.push_token(list);
        }
        interrupts
    }

    fn fill(&mut self, list: ListIndex, notice: &Notice, next: u32) {
        let from = self.head(list) as usize / 4;
        self.notices[from..from + 3].copy_from_slice(&notice.words);
        self.notices[from + NEXT] = next;
        self.notices[from + 4..from + 8].copy_from_slice(&notice.metadata);
    }

    /// "2, NQR likewise with int_lo": went from empty to non-empty with int_lo off (sets it).
    fn push_token(&mut self, list: ListIndex) -> u32 {
        let was_empty = self.saved.nqr.is_empty();
        let word = self.token(list);
        let token = if self.errs(Wrong::TokenWithEnqueueBit) {
            word
        } else {
            word >> 1
        };
        self.push(QueueName::Nqr, token);
        let off = self.saved.int_lo == 0 || self.errs(Wrong::InterruptWithoutBitTest);
        if was_empty && off {
            self.saved.int_lo = 1;
            INTERRUPT_NQR
        } else {
            0
        }
    }

    /// "do_acks puts slot plus 2^31 on AQR (H)"; "1, AQR went from empty to non-empty with
    /// int_hi off (sets it)".
    pub(super) fn push_ack(&mut self, slot: u32) -> u32 {
        let was_empty = self.saved.aqr.is_empty();
        let top = if self.errs(Wrong::AqrWithoutTopBit) {
            0
        } else {
            1 << 31
        };
        self.push(QueueName::Aqr, slot + top);
        if was_empty && self.saved.int_hi == 0 {
            self.saved.int_hi = 1;
            INTERRUPT_AQR
        } else {
            0
        }
    }

    /// Only for the mistake `NewestBlock`.
    fn remove_newest_block(&mut self) -> u32 {
        let newest = self.saved.nbqr.length - 1;
        let block = self.receive_ram[self.entry_word(QueueName::Nbqr, newest)];
        self.saved.nbqr.length = newest;
        block
    }
}

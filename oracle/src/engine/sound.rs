//! 01, "Replies", 13 and 14: "a memory has another size", and the soundness of a state.

use super::descriptor::Descriptor;
use super::layout::*;
use super::machine::Machine;
use super::reply::Reply;
use super::saved::QueueName;
use crate::wrong::Wrong;

/// PCSR0: "reset 1, enable 1, reserved 10, incarnation 4, node 16"; "reserved bits or a node
/// above 4095 are a bad value".
pub const PCSR0_RESET: u32 = 0x8000_0000;
pub const PCSR0_NEVER: u32 = 0x3FF0_F000;

/// "A pointer is a multiple of 4 inside its RAM".
pub fn is_pointer(value: u32, ram_words: usize) -> bool {
    value % 4 == 0 && u64::from(value) < 4 * ram_words as u64
}

impl Machine {
    pub(super) fn check_sizes_and_sound(&self) -> Result<(), Reply> {
        self.check_sizes()?;
        self.check_sound()
    }

    /// sizes: "a memory has another size".
    pub(super) fn check_sizes(&self) -> Result<(), Reply> {
        let notices = self.notices.len();
        let right = self.send_ram.len() == SEND_WORDS
            && self.receive_ram.len() == RECEIVE_WORDS
            && self.data.len() <= DATA_BYTES_MOST
            && (NOTICE_WORDS_LEAST..=NOTICE_WORDS_MOST).contains(&notices)
            && notices % 8 == 0;
        if right {
            Ok(())
        } else {
            Err(Reply::Sizes)
        }
    }

    /// unsound. Asked only after `check_sizes`.
    pub(super) fn check_sound(&self) -> Result<(), Reply> {
        match self.first_unsound() {
            None => Ok(()),
            Some(_) => Err(Reply::Unsound),
        }
    }

    /// What is unsound about a machine of right sizes, for a reader.
    pub fn first_unsound(&self) -> Option<&'static str> {
        if !self.fields_sound() {
            Some("a saved number is beyond its range")
        } else if !self.queues_sound() {
            Some("a queue's place or length is beyond its range")
        } else if !self.lists_sound() {
            Some("a head or reader's place is no block address")
        } else if !self.waiting_sound() {
            Some("a waiting block is no block address")
        } else if !self.descriptors_sound() {
            Some("an active descriptor fails the go rule for bytes_to_go")
        } else {
            None
        }
    }

    /// "a register field beyond its range, a pointer not a multiple of 4, the reset or a
    /// reserved PCSR0 bit set, [...] last sender beyond 3".
    fn fields_sound(&self) -> bool {
        let saved = &self.saved;
        saved.pcsr0 & (PCSR0_RESET | PCSR0_NEVER) == 0
            && saved.int_hi <= 1
            && saved.int_lo <= 1
            && saved.slot_count <= SLOTS
            && is_pointer(saved.send_pointer, SEND_WORDS)
            && is_pointer(saved.receive_pointer, RECEIVE_WORDS)
            && saved.last_sender < DESCRIPTORS as u32
    }

    /// "queue place beyond 255 or length beyond 256".
    fn queues_sound(&self) -> bool {
        QueueName::ALL.iter().all(|&name| {
            let queue = self.saved.queue(name);
            queue.place < QUEUE_ENTRIES && queue.length <= QUEUE_ENTRIES
        })
    }

    /// "a head, reader's place [...] that is no block address (heads and places may be 0)".
    fn lists_sound(&self) -> bool {
        let none_or_block = |address: u32| address == 0 || self.block(address).is_some();
        ListIndex::all()
            .all(|list| none_or_block(self.head(list)) && none_or_block(self.place(list)))
    }

    /// "[a] waiting block that is no block address".
    fn waiting_sound(&self) -> bool {
        if self.errs(Wrong::WaitingUnchecked) {
            return true;
        }
        (0..self.saved.nbqr.length).all(|nth| {
            let word = self.entry_word(QueueName::Nbqr, nth);
            self.block(self.receive_ram[word]).is_some()
        })
    }

    /// "an active descriptor failing the go rule for bytes_to_go".
    fn descriptors_sound(&self) -> bool {
        (0..DESCRIPTORS).all(|number| {
            let descriptor = Descriptor::of(&self.send_ram, number);
            !descriptor.is_active()
                || descriptor.keeps_go_rule(
                    descriptor.bytes_to_go(),
                    self.data.len() as u64,
                    self.wrong,
                )
        })
    }
}

//! The machine, and what several calls share.

use super::layout::{BlockAddress, ListIndex, RECEIVE_WORDS, SEND_WORDS};
use super::reply::Reply;
use super::saved::{Queue, QueueName, Saved};
use crate::wrong::Wrong;

/// The saved state and the four memories.
#[derive(Clone, Debug, PartialEq, Eq)]
pub struct Machine {
    pub saved: Saved,
    pub send_ram: Vec<u32>,
    pub receive_ram: Vec<u32>,
    pub data: Vec<u8>,
    pub notices: Vec<u32>,
    /// The one mistake this machine makes on purpose; `None` is the engine of 01.
    pub wrong: Option<Wrong>,
}

impl Machine {
    /// A machine whose memories are all zero; not yet reset.
    pub fn zeroed(data_bytes: usize, notice_words: usize) -> Machine {
        Machine {
            saved: Saved::default(),
            send_ram: vec![0; SEND_WORDS],
            receive_ram: vec![0; RECEIVE_WORDS],
            data: vec![0; data_bytes],
            notices: vec![0; notice_words],
            wrong: None,
        }
    }

    /// Whether this machine is the one that makes this mistake.
    pub(super) fn errs(&self, wrong: Wrong) -> bool {
        self.wrong == Some(wrong)
    }

    /// off: "receive or send with enable 0".
    pub(super) fn check_enabled(&self) -> Result<(), Reply> {
        if self.saved.enabled() {
            Ok(())
        } else {
            Err(Reply::Off)
        }
    }

    pub fn block(&self, address: u32) -> Option<BlockAddress> {
        BlockAddress::new(address, self.notices.len())
    }

    pub fn head(&self, list: ListIndex) -> u32 {
        self.receive_ram[list.head_word()]
    }

    pub fn token(&self, list: ListIndex) -> u32 {
        self.receive_ram[list.token_word()]
    }

    pub fn place(&self, list: ListIndex) -> u32 {
        self.receive_ram[list.place_word()]
    }

    /// The Receive RAM word of a queue's entry.
    pub fn entry_word(&self, name: QueueName, nth: u32) -> usize {
        name.first_word() + self.saved.queue(name).entry(nth)
    }

    pub(super) fn push(&mut self, name: QueueName, entry: u32) {
        let queue = self.saved.queue(name);
        let word = self.entry_word(name, queue.length);
        self.receive_ram[word] = entry;
        *self.saved.queue_mut(name) = queue.with_one_more();
    }

    /// The oldest entry, which leaves the queue; "a removed entry's word stays".
    pub(super) fn remove(&mut self, name: QueueName) -> u32 {
        let queue = self.saved.queue(name);
        let word = self.entry_word(name, 0);
        let entry = self.receive_ram[word];
        *self.saved.queue_mut(name) = queue.without_oldest();
        if self.errs(Wrong::LastRemovalRestarts) && queue.length == 1 {
            *self.saved.queue_mut(name) = Queue::default();
        }
        if self.errs(Wrong::RemovalClearsWord) {
            self.receive_ram[word] = 0;
        }
        entry
    }
}

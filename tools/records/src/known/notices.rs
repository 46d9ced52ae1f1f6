//! 01, "Notices and interrupts": lists, what posting needs, and takes.

use super::{Known, LISTS, QUEUE_ENTRIES};
use crate::fields::{part, TOKEN};
use crate::packet::Packet;

/// A notice on a list.
#[derive(Clone, Copy, Debug, PartialEq, Eq)]
pub struct Notice {
    pub event: Event,
    pub word0: u32,
}

/// What a notice tells of.
#[derive(Clone, Copy, Debug, PartialEq, Eq)]
pub enum Event {
    Message,
    Ack,
    Fault,
    /// "with notify a zero notice is posted to note_index"
    SendEnd,
}

/// What is missing for a need, and whether that is all there is to know.
#[derive(Clone, Debug, Default)]
pub struct Missing {
    pub reasons: Vec<String>,
    pub all_known: bool,
}

impl Missing {
    /// Is there room? None if it is not known.
    pub fn is_room(&self) -> Option<bool> {
        match self.reasons[..] {
            [] => self.all_known.then_some(true),
            _ => Some(false),
        }
    }
}

impl Notice {
    /// "word 0 slot 16, src_node 12, zero 4".
    pub fn of_message(event: Event, packet: &Packet) -> Notice {
        let word0 = packet.word(1) & 0xFFFF_FFF0;
        Notice { event, word0 }
    }

    /// "Fault, on list 0: slot 16, status 16".
    pub fn of_fault(packet: &Packet, status: u32) -> Notice {
        Notice {
            event: Event::Fault,
            word0: packet.slot() << 16 | status & 0xFFFF,
        }
    }

    /// "a zero notice".
    pub const SEND_END: Notice = Notice {
        event: Event::SendEnd,
        word0: 0,
    };
}

impl Known {
    fn enqueues(&self, list: usize) -> Option<bool> {
        self.tokens[list].map(|word| part(word, TOKEN, "enqueue") == 1)
    }

    /// Posting "needs a set head, NBQR not empty, and NQR not full when enqueuing".
    pub fn missing_to_post(&self, list: usize) -> Missing {
        let enqueues = self.enqueues(list);
        let nqr_full = match enqueues {
            Some(false) => Some(false),
            _ => self.nqr.map(|count| count == QUEUE_ENTRIES),
        };
        let needs = [
            (
                self.heads[list].map(|set| !set),
                format!("list {list} has no head"),
            ),
            (
                self.nbqr.map(|count| count == 0),
                "NBQR is empty".to_string(),
            ),
            (nqr_full, format!("NQR is full and list {list} enqueues")),
        ];
        let enqueue_known = enqueues.is_some() || nqr_full == Some(false);
        let all_known = needs.iter().all(|(lacks, _)| lacks.is_some()) && enqueue_known;
        let lacking = needs.into_iter().filter(|(lacks, _)| *lacks == Some(true));
        Missing {
            reasons: lacking.map(|(_, reason)| reason).collect(),
            all_known,
        }
    }

    pub(super) fn hand_over(&mut self, block: u32) {
        if !self.handed.insert(block) {
            self.posted.fill(None);
        }
    }

    /// A notice was posted; none if it is not known to which list.
    pub(super) fn post(&mut self, list: Option<u32>, notice: Notice) {
        let list = match list.map(|list| list as usize) {
            Some(list) if list < LISTS => list,
            _ => return self.posted_somewhere(),
        };
        self.nbqr = self.nbqr.map(|count| count.saturating_sub(1));
        self.nqr = match self.enqueues(list) {
            Some(enqueues) => self.nqr.map(|count| count + u32::from(enqueues)),
            None => None,
        };
        // Posting needs a set head, and leaves another.
        self.heads[list] = Some(true);
        if let Some(notices) = &mut self.posted[list] {
            notices.push_back(notice);
        }
    }

    /// A notice may have been posted, somewhere.
    pub(super) fn posted_somewhere(&mut self) {
        self.nbqr = None;
        self.nqr = None;
        self.posted.fill(None);
    }

    /// "returns the block to NBQR".
    pub(super) fn was_taken(&mut self, list: u32) {
        self.nbqr = self.nbqr.map(|count| count + 1);
        if let Some(Some(notices)) = self.posted.get_mut(list as usize) {
            notices.pop_front();
        }
    }

    /// The oldest notice of a list that has not been taken, if it is known.
    pub fn oldest(&self, list: u32) -> Option<Notice> {
        let notices = self.posted.get(list as usize)?.as_ref()?;
        notices.front().copied()
    }

    /// "1, AQR went from empty to non-empty [...]; 2, NQR likewise [...]; 4, NBQR became empty".
    pub(super) fn interrupted(&mut self, interrupts: u32) {
        if interrupts & 1 != 0 {
            self.aqr = Some(1);
        }
        if interrupts & 2 != 0 {
            self.nqr = Some(1);
        }
        if interrupts & 4 != 0 {
            self.nbqr = Some(0);
        }
    }
}

//! 01, "Sending": the go rule, who sends, and what a packet sent changes.

use super::{Known, Notice, Words, LISTS};
use crate::fields::{part, CONTROL0, CONTROL1, DESCRIPTOR2};
use crate::places::DATA_BYTES;

const LARGEST_24: u64 = 0xFF_FFFF;
const STALLED: u32 = 0x4000_0000;
const DONE: u32 = 0x2000_0000;

/// A packet that a descriptor sends.
#[derive(Clone, Copy, Debug)]
pub struct Sent {
    pub descriptor: usize,
    pub payload: u32,
    /// Of the whole packet.
    pub length: u32,
    pub left: u32,
    /// "With nothing left, or control_pkt, done is set".
    pub ends: bool,
    /// The list of the zero notice.
    pub posts: Option<u32>,
}

/// "Active means go 1 and done 0."
fn is_active(words: &Words) -> Option<bool> {
    let goes = part(words[5]?, CONTROL1, "go") == 1;
    Some(goes && words[6]? & DONE == 0)
}

/// What a descriptor's next packet is.
fn next_packet(words: &Words, descriptor: usize) -> Option<Sent> {
    let control1 = words[5]?;
    let to_go = words[4]?;
    let is_control = part(control1, CONTROL1, "control_pkt") == 1;
    let payload = if is_control { 0 } else { to_go.min(128) };
    let left = to_go - payload;
    let header = if part(control1, CONTROL1, "meta_data") == 1 {
        36
    } else {
        20
    };
    let ends = is_control || left == 0;
    let notifies = part(control1, CONTROL1, "notify") == 1;
    let list = part(words[2]?, DESCRIPTOR2, "note_index");
    Some(Sent {
        descriptor,
        payload,
        length: header + if payload > 0 { payload + 4 } else { 0 },
        left,
        ends,
        posts: (ends && notifies).then_some(list),
    })
}

impl Known {
    pub fn is_active(&self, descriptor: usize) -> Option<bool> {
        is_active(&self.descriptors[descriptor])
    }

    /// Which descriptors are active, if all of that is known.
    pub fn active(&self) -> Option<Vec<usize>> {
        let mut active = Vec::new();
        for (number, words) in self.descriptors.iter().enumerate() {
            if is_active(words)? {
                active.push(number);
            }
        }
        Some(active)
    }

    /// "Starting after the last sender and going round, the first ready descriptor met in that
    /// order sends." None if it is not known, or none is ready.
    pub fn next_sent(&self) -> Option<Sent> {
        let after = self.last_sender? + 1;
        for number in (after..after + 4).map(|number| number % 4) {
            let words = &self.descriptors[number];
            if !is_active(words)? {
                continue;
            }
            let sent = next_packet(words, number)?;
            let list = sent.posts.map(|list| list as usize);
            let ready = match list {
                Some(list) if list < LISTS => self.missing_to_post(list).is_room()?,
                _ => true,
            };
            if ready {
                return Some(sent);
            }
        }
        None
    }

    /// The active descriptors whose next packet ends them with a notice, and its list.
    pub fn ending(&self) -> Option<Vec<(usize, u32)>> {
        let mut ending = Vec::new();
        for number in self.active()? {
            let sent = next_packet(&self.descriptors[number], number)?;
            ending.extend(sent.posts.map(|list| (number, list)));
        }
        Some(ending)
    }

    pub(super) fn was_sent(&mut self) {
        let sent = match self.next_sent() {
            Some(sent) => sent,
            None => return self.someone_sent(),
        };
        self.last_sender = Some(sent.descriptor);
        let words = &mut self.descriptors[sent.descriptor];
        // "msg_address and offset rise and bytes_to_go falls by the payload; use bits, meta_data
        // and meta_cnt go to 0; stalled clears".
        words[0] = words[0].map(|address| address.wrapping_add(sent.payload));
        words[3] = words[3].map(|control0| (control0 & 0x3FFF_FFFF).wrapping_add(sent.payload));
        words[4] = Some(sent.left);
        words[5] = words[5].map(|control1| control1 & 0xF0FF_FFFF);
        let done = if sent.ends { DONE } else { 0 };
        words[6] = words[6].map(|status2| status2 & !STALLED | done);
        if sent.posts.is_some() {
            self.post(sent.posts, Notice::SEND_END);
        }
    }

    /// A packet was sent, and it is not known by which descriptor.
    fn someone_sent(&mut self) {
        self.last_sender = None;
        for words in &mut self.descriptors {
            if is_active(words) != Some(false) {
                *words = [None; 16];
            }
        }
        self.posted_somewhere();
    }

    /// "fabric not ready; stalled set on the chosen descriptor, no more".
    pub(super) fn was_held(&mut self) {
        let chosen = self.next_sent().map(|sent| sent.descriptor);
        for (number, words) in self.descriptors.iter_mut().enumerate() {
            match chosen {
                Some(chosen) if chosen == number => {
                    words[6] = words[6].map(|status2| status2 | STALLED);
                }
                Some(_) => {}
                None => words[6] = None,
            }
        }
    }

    /// The clauses of the go rule that a control1 word with go 1 breaks, and whether every clause
    /// could be looked at.
    pub fn broken_go_rule(&self, descriptor: usize, control1: u32) -> (Vec<String>, bool) {
        let words = &self.descriptors[descriptor];
        let clauses = [flag_clauses(words, control1), size_clauses(words, control1)].concat();
        let all_known = clauses.iter().all(|(broken, _)| broken.is_some());
        let broken = clauses
            .into_iter()
            .filter(|(broken, _)| *broken == Some(true));
        (broken.map(|(_, clause)| clause).collect(), all_known)
    }
}

/// A clause, and whether it is broken.
type Clause = (Option<bool>, String);

fn flag_clauses(words: &Words, control1: u32) -> Vec<Clause> {
    let own = |name| part(control1, CONTROL1, name);
    let other = |name| words[3].map(|word| part(word, CONTROL0, name));
    let note_index = words[2].map(|word| part(word, DESCRIPTOR2, "note_index"));
    let meta = own("meta_data") == 1;
    let plain_control = own("control_pkt") == 1 && !meta;
    let bad_list = match own("notify") {
        0 => Some(false),
        _ => note_index.map(|index| index >= LISTS as u32),
    };
    let clause = |broken, text: &str| (broken, text.to_string());
    vec![
        clause(Some(own("meta_cnt") > 4), "meta_cnt is above 4"),
        clause(
            Some(own("meta_cnt") > 0 && !meta),
            "meta_cnt is not 0 without meta_data",
        ),
        clause(
            other("reserved").map(|bit| bit == 1),
            "control0's reserved bit is 1",
        ),
        clause(
            other("ack_pkt").map(|ack| ack == 1 && !plain_control),
            "ack_pkt stands only with control_pkt and no metadata",
        ),
        clause(bad_list, "with notify, note_index must be below 64"),
    ]
}

/// "and without control_pkt, a size that is a multiple of 4, [...]". Sums are exact.
fn size_clauses(words: &Words, control1: u32) -> Vec<Clause> {
    if part(control1, CONTROL1, "control_pkt") == 1 {
        return Vec::new();
    }
    let size = u64::from(part(control1, CONTROL1, "msg_size"));
    let offset = words[3].map(|word| u64::from(part(word, CONTROL0, "offset")));
    let address = words[0].map(u64::from);
    let mut clauses = vec![
        (
            Some(size % 4 != 0),
            format!("the size {size} is no multiple of 4"),
        ),
        (
            offset.map(|offset| offset + size > LARGEST_24),
            format!("offset plus size is above {LARGEST_24}"),
        ),
    ];
    if part(control1, CONTROL1, "direct_io") == 1 {
        let text = "for direct_io the address must be a multiple of 4, at least 0x100, and plus \
                    size at most 0x1000";
        let is_bad = |at: u64| at % 4 != 0 || at < 0x100 || at + size > 0x1000;
        clauses.push((address.map(is_bad), text.to_string()));
    } else {
        let text = format!("msg_address plus size is above the data memory's {DATA_BYTES} bytes");
        let is_bad = |at: u64| at + size > u64::from(DATA_BYTES);
        clauses.push((address.map(is_bad), text));
    }
    clauses
}

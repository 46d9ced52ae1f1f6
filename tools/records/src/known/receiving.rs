//! 01, "Receipt, first failure decides": the steps as far as they are known, and what a packet
//! that was taken changes.

use super::{Event, Known, Notice, Words, QUEUE_ENTRIES};
use crate::fields::{part, SLOT2, SLOT6};
use crate::packet::Packet;

const LARGEST_24: i64 = 0xFF_FFFF;

/// What a packet with payload or without does to its slot.
#[derive(Clone, Copy, Debug)]
pub struct Landing {
    pub base: u32,
    pub bytes_to_go: i64,
    pub complete: bool,
    pub do_acks: bool,
    /// The list of the message's notice.
    pub notifies: Option<u32>,
}

impl Known {
    fn slot(&self, packet: &Packet) -> Option<&Words> {
        self.slots.get(packet.slot() as usize)
    }

    pub fn ack_list(&self, packet: &Packet) -> Option<u32> {
        Some(part(self.slot(packet)?[6]?, SLOT6, "ack_note_index"))
    }

    /// What the packet does, if it is taken and no ack.
    pub fn landing(&self, packet: &Packet) -> Option<Landing> {
        let words = self.slot(packet)?;
        let uses_size = packet.control0("use_msg_size") == 1;
        let added = if uses_size { packet.msg_size() } else { 0 };
        let payload = packet.payload().len() as i64;
        // "bytes_to_go, signed".
        let before = i64::from(words[3]? as i32);
        let bytes_to_go = before + i64::from(added) - payload;
        let flag = |name| Some(part(words[2]?, SLOT2, name));
        let complete = bytes_to_go == 0 && (payload > 0 || uses_size);
        let notifies = complete && flag("notify")? == 1;
        Some(Landing {
            base: words[0]?,
            bytes_to_go,
            complete,
            do_acks: complete && flag("do_acks")? == 1,
            notifies: notifies.then_some(flag("note_index")?),
        })
    }

    /// The status of the first step that fails, 0 if none does. None if it is not known.
    pub fn first_failure(&self, packet: &Packet) -> Option<u32> {
        if !packet.header_check_is_right() {
            return Some(0x0400);
        }
        if !packet.wrong_fields().is_empty() {
            return Some(0x0080);
        }
        if packet.dst_node() != self.pcsr0_field("node")? {
            return Some(0x2000);
        }
        if packet.slot() >= self.slot_count? {
            return Some(0x4000);
        }
        if !self.why_not_valid(packet.slot() as usize)?.is_empty() {
            return Some(0x8000);
        }
        if packet.control0("incarnation") != self.pcsr0_field("incarnation")? {
            return Some(0x0100);
        }
        if packet.is_ack() {
            return Some(0);
        }
        self.first_failure_of_body(packet)
    }

    fn first_failure_of_body(&self, packet: &Packet) -> Option<u32> {
        let size = self.slot(packet)?[1]?;
        let offset = packet.control0("offset");
        if offset > size {
            return Some(0x1000);
        }
        let too_long = offset as usize + packet.payload().len() > size as usize;
        if too_long || self.landing(packet)?.bytes_to_go.abs() > LARGEST_24 {
            return Some(0x0800);
        }
        Some(if packet.body_is_right() { 0 } else { 0x0200 })
    }

    /// Is there room for the notice and the AQR entry that the packet needs? None if it is not
    /// known.
    pub fn has_room(&self, packet: &Packet) -> Option<bool> {
        let can_post = |list: u32| self.missing_to_post(list as usize).is_room();
        match self.first_failure(packet)? {
            0 if packet.is_ack() => can_post(self.ack_list(packet)?),
            0 => {
                let landing = self.landing(packet)?;
                let acks = !landing.do_acks || self.aqr? < QUEUE_ENTRIES;
                let posts = landing.notifies.map_or(Some(true), can_post)?;
                Some(acks && posts)
            }
            _ => can_post(0),
        }
    }

    /// A fault's notice is on list 0.
    pub(super) fn faulted(&mut self, packet: Option<Packet>, status: u32) {
        match packet {
            Some(packet) => self.post(Some(0), Notice::of_fault(&packet, status)),
            None => self.posted_somewhere(),
        }
    }

    pub(super) fn received(&mut self, packet: Option<Packet>) {
        let packet = match packet {
            Some(packet) => packet,
            None => return self.posted_somewhere(),
        };
        if packet.is_ack() {
            let notice = Notice::of_message(Event::Ack, &packet);
            return self.post(self.ack_list(&packet), notice);
        }
        let landing = self.landing(&packet);
        match self.slots.get_mut(packet.slot() as usize) {
            Some(words) => change_slot(words, &packet, landing),
            None => return self.posted_somewhere(),
        }
        let landing = match landing {
            Some(landing) => landing,
            None => {
                self.aqr = None;
                return self.posted_somewhere();
            }
        };
        if landing.do_acks {
            self.aqr = self.aqr.map(|count| count + 1);
        }
        if landing.notifies.is_some() {
            let notice = Notice::of_message(Event::Message, &packet);
            self.post(landing.notifies, notice);
        }
    }
}

/// "use_msg_size stores msg_size [...]; use_msg_offset stores the header's offset; metadata, only
/// if the packet has the flag, is stored with flag and length in words 7 to 11".
fn change_slot(words: &mut Words, packet: &Packet, landing: Option<Landing>) {
    if packet.control0("use_msg_size") == 1 {
        words[4] = Some(packet.msg_size());
    }
    if packet.control0("use_msg_offset") == 1 {
        words[5] = Some(packet.control0("offset"));
    }
    if let Some(metadata) = packet.metadata() {
        words[7] = Some(packet.word(3) & 0x0F00_0000);
        for (word, value) in words[8..12].iter_mut().zip(metadata) {
            *word = Some(value);
        }
    }
    words[3] = landing.map(|landing| landing.bytes_to_go as i32 as u32);
    // "slot words 7 to 11 go to 0".
    let left = match landing {
        Some(landing) if landing.complete => Some(0),
        Some(_) => return,
        None => None,
    };
    words[7..12].fill(left);
}

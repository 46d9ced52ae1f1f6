//! 01, "Sending": the call send.

use super::descriptor::*;
use super::layout::{ListIndex, DESCRIPTORS, DESCRIPTOR_WORDS};
use super::machine::Machine;
use super::notice::Notice;
use super::packet::{check, LONGEST};
use super::reply::{Answer, Outcome, Reply};
use crate::wrong::Wrong;

impl Machine {
    pub(super) fn try_send(&mut self, fabric_ready: bool, room: &mut [u8]) -> Outcome {
        self.check_sizes_and_sound()?;
        self.check_enabled()?;
        let none_active = (0..DESCRIPTORS).all(|number| !self.descriptor(number).is_active());
        if self.errs(Wrong::QuietBeforeShort) && none_active {
            return Err(Reply::Quiet);
        }
        // short: "packet room below 168 bytes"
        if room.len() < LONGEST {
            return Err(Reply::Short);
        }
        // quiet: "none active"
        if none_active {
            return Err(Reply::Quiet);
        }
        // stalled: "send: none ready"
        let number = self.next_sender().ok_or(Reply::Stalled)?;
        // fabric: "stalled set on the chosen descriptor, no more"
        if !fabric_ready {
            self.send_ram[number * DESCRIPTOR_WORDS + STATUS2] |= status2::STALLED;
            if self.errs(Wrong::FabricMovesLastSender) {
                self.saved.last_sender = number as u32;
            }
            return Err(Reply::Fabric);
        }
        let length = self.build_packet(number, room);
        let interrupts = self.after_sending(number);
        Ok(Answer::done(length as u32, interrupts))
    }

    fn descriptor(&self, number: usize) -> Descriptor {
        Descriptor::of(&self.send_ram, number)
    }

    /// "Starting after the last sender and going round, the first ready descriptor met in that
    /// order sends."
    fn next_sender(&self) -> Option<usize> {
        let last = self.saved.last_sender as usize;
        let first = if self.errs(Wrong::StartsAtLastSender) {
            last
        } else {
            last + 1
        };
        (first..first + DESCRIPTORS)
            .map(|number| number % DESCRIPTORS)
            .find(|&number| self.is_ready(&self.descriptor(number)))
    }

    /// "A descriptor is ready if active and any notice its next packet would post can be posted."
    fn is_ready(&self, descriptor: &Descriptor) -> bool {
        let posts = descriptor.notifies() && descriptor.next_is_last();
        descriptor.is_active() && (!posts || self.can_post(list_to_notify(descriptor)))
    }

    /// Writes the packet into the room; returns its length.
    fn build_packet(&self, number: usize, room: &mut [u8]) -> usize {
        let descriptor = self.descriptor(number);
        let words = &descriptor.words;
        let header = [
            words[ROUTE],
            words[SLOT_AND_LIST] & 0xFFFF_0000 | self.saved.node() << 4,
            words[CONTROL0],
            words[CONTROL1] & 0x0FFF_FFFF,
        ];
        let metadata = if descriptor.has_metadata() {
            &words[METADATA..METADATA + 4]
        } else {
            &[]
        };
        let header = to_bytes(&header);
        let metadata = to_bytes(metadata);
        let header_check = check(&[&header, &metadata]);
        let payload = self.next_payload(&descriptor);
        let mut packet = header;
        packet.extend(check_and_zeros(header_check));
        packet.extend(metadata);
        if !payload.is_empty() {
            packet.extend(&payload);
            packet.extend(check_and_zeros(check(&[&payload])));
        }
        room[..packet.len()].copy_from_slice(&packet);
        packet.len()
    }

    /// The payload's bytes: from the data memory, or for direct_io from Send RAM.
    fn next_payload(&self, descriptor: &Descriptor) -> Vec<u8> {
        let from = descriptor.words[MSG_ADDRESS] as usize;
        let length = descriptor.next_payload() as usize;
        if length == 0 {
            Vec::new()
        } else if descriptor.is_direct() {
            to_bytes(&self.send_ram[from / 4..(from + length) / 4])
        } else {
            self.data[from..from + length].to_vec()
        }
    }

    /// "After it msg_address and offset rise and bytes_to_go falls by the payload; use bits,
    /// meta_data and meta_cnt go to 0; stalled clears. With nothing left, or control_pkt, done is
    /// set and with notify a zero notice is posted to note_index." Returns the interrupts.
    fn after_sending(&mut self, number: usize) -> u32 {
        let descriptor = self.descriptor(number);
        let payload = descriptor.next_payload();
        let mut words = descriptor.words;
        words[MSG_ADDRESS] += payload;
        words[CONTROL0] += payload;
        words[BYTES_TO_GO] -= payload;
        if !self.errs(Wrong::UseBitsStay) {
            words[CONTROL0] &= !(control0::USE_MSG_SIZE | control0::USE_MSG_OFFSET);
        }
        if !self.errs(Wrong::MetaDataStays) {
            words[CONTROL1] &= !(control1::META_DATA | control1::META_CNT);
        }
        words[STATUS2] &= !status2::STALLED;
        let last = descriptor.next_is_last();
        if last {
            words[STATUS2] |= status2::DONE;
        }
        let from = number * DESCRIPTOR_WORDS;
        self.send_ram[from..from + DESCRIPTOR_WORDS].copy_from_slice(&words);
        self.saved.last_sender = number as u32;
        if last && descriptor.notifies() {
            self.post(list_to_notify(&descriptor), &Notice::default())
        } else {
            0
        }
    }
}

/// An active descriptor keeps the go rule: "with notify, note_index below 64".
fn list_to_notify(descriptor: &Descriptor) -> ListIndex {
    ListIndex::new(descriptor.note_index()).expect("a notifying descriptor names a list below 64")
}

/// "Words are big-endian".
fn to_bytes(words: &[u32]) -> Vec<u8> {
    words.iter().flat_map(|word| word.to_be_bytes()).collect()
}

/// "header check 16, zero 16", "body check 16 and zero 16".
fn check_and_zeros(check: u16) -> [u8; 4] {
    (u32::from(check) << 16).to_be_bytes()
}

//! 01, "Receipt, first failure decides".

use super::arrival::*;
use super::layout::{ListIndex, SlotIndex};
use super::machine::Machine;
use super::notice::Notice;
use super::packet::{check, Packet};
use super::reply::{Answer, Outcome, Reply};
use super::slot::{self, in_range, Slot};
use crate::wrong::Wrong;

/// The steps' statuses.
mod status {
    pub const HEADER_CHECK: u16 = 0x0400;
    pub const ZERO_FIELDS: u16 = 0x0080;
    pub const DST_NODE: u16 = 0x2000;
    pub const SLOT_RANGE: u16 = 0x4000;
    pub const SLOT_NOT_VALID: u16 = 0x8000;
    pub const INCARNATION: u16 = 0x0100;
    pub const OFFSET: u16 = 0x1000;
    pub const SIZE: u16 = 0x0800;
    pub const BODY_CHECK: u16 = 0x0200;
}

/// A step's failure: the status of the fault.
type Step<T> = Result<T, u16>;

fn require(passed: bool, status: u16) -> Step<()> {
    if passed {
        Ok(())
    } else {
        Err(status)
    }
}

/// What the steps found a packet to be.
enum Verdict {
    Ack(SlotIndex),
    Data(SlotIndex),
}

impl Machine {
    pub(super) fn try_receive(&mut self, bytes: &[u8]) -> Outcome {
        self.check_sizes_and_sound()?;
        let packet = Packet::new(bytes).ok_or(Reply::NoPacket);
        if self.errs(Wrong::NoPacketBeforeOff) {
            packet?;
        }
        self.check_enabled()?;
        let packet = packet?;
        match self.examine(&packet) {
            Ok(Verdict::Ack(slot)) => self.receive_ack(&packet, slot),
            Ok(Verdict::Data(slot)) => self.receive_data(&packet, slot),
            Err(status) => self.receive_fault(&packet, status),
        }
    }

    /// The table of steps, top to bottom.
    fn examine(&mut self, packet: &Packet) -> Step<Verdict> {
        let metadata = if self.errs(Wrong::HeaderCheckSkipsMetadata) {
            &[]
        } else {
            packet.metadata_bytes()
        };
        let header_check = check(&[packet.header_bytes(), metadata]);
        require(header_check == packet.header_check(), status::HEADER_CHECK)?;
        require(zero_fields_hold(packet), status::ZERO_FIELDS)?;
        require(packet.dst_node() == self.saved.node(), status::DST_NODE)?;
        let index = self.slot_in_count(packet)?;
        let slot = Slot::of(&self.receive_ram, index);
        let same_incarnation = packet.incarnation() == self.saved.incarnation();
        if self.errs(Wrong::IncarnationBeforeValid) {
            require(same_incarnation, status::INCARNATION)?;
        }
        let valid = slot.is_valid(self.data.len() as u64, self.wrong);
        require(valid, status::SLOT_NOT_VALID)?;
        require(same_incarnation, status::INCARNATION)?;
        // "ack: notice to ack_note_index, no slot change, end"
        if packet.is_ack() {
            return Ok(Verdict::Ack(index));
        }
        self.payload_fits(packet, &slot)?;
        if self.errs(Wrong::PayloadBeforeBodyCheck) {
            self.store_payload(packet, &slot);
        }
        let padding_free = self.errs(Wrong::PaddingUnchecked);
        require(body_check_holds(packet, padding_free), status::BODY_CHECK)?;
        Ok(Verdict::Data(index))
    }

    /// "slot at or above the count (H)".
    fn slot_in_count(&self, packet: &Packet) -> Step<SlotIndex> {
        let number = packet.dst_slot();
        let below = if self.errs(Wrong::SlotEqualsCount) {
            number <= self.saved.slot_count
        } else {
            number < self.saved.slot_count
        };
        let index = SlotIndex::new(number).filter(|_| below);
        index.ok_or(status::SLOT_RANGE)
    }

    /// "offset above buffer size", "offset plus payload above it", "new bytes_to_go beyond
    /// 16,777,215 either way (H)".
    fn payload_fits(&self, packet: &Packet, slot: &Slot) -> Step<()> {
        let offset = u64::from(packet.offset());
        let size = u64::from(slot.words[slot::SIZE]);
        let payload = packet.payload().len() as u64;
        let inside = if self.errs(Wrong::OffsetEqualsSize) {
            offset < size
        } else {
            offset <= size
        };
        require(inside, status::OFFSET)?;
        require(offset + payload <= size, status::SIZE)?;
        if self.errs(Wrong::RangeBeforePayload) {
            require(in_range(risen_bytes_to_go(packet, slot)), status::SIZE)?;
        }
        require(in_range(new_bytes_to_go(packet, slot)), status::SIZE)
    }

    /// "Fault, on list 0: slot 16, status 16; 0; dst_node 16, src_node 16; next; zeros."
    fn receive_fault(&mut self, packet: &Packet, status: u16) -> Outcome {
        let notice = Notice {
            words: [
                packet.dst_slot() << 16 | u32::from(status),
                0,
                packet.dst_node() << 16 | packet.src_node(),
            ],
            metadata: [0; 4],
        };
        if self.errs(Wrong::StalledCounts) && !self.can_post(ListIndex::FAULTS) {
            self.saved.faulted = self.saved.faulted.wrapping_add(1);
        }
        self.need_aqr_if(Wrong::FaultNeedsAqr)?;
        self.need_post(ListIndex::FAULTS, &notice)?;
        let interrupts = self.post(ListIndex::FAULTS, &notice);
        // "faulted those answered fault", "modulo 2^32"
        self.saved.faulted = self.saved.faulted.wrapping_add(1);
        Ok(Answer::fault(status, interrupts))
    }

    /// "an ack packet gives its own" offset and msg_size; its metadata words are zeros.
    fn receive_ack(&mut self, packet: &Packet, index: SlotIndex) -> Outcome {
        let mut slot = Slot::of(&self.receive_ram, index);
        let list = list_of_valid_slot(slot.ack_note_index());
        let notice = Notice {
            words: [
                packet.word(1),
                1 << 29 | packet.incarnation() << 24 | packet.offset(),
                packet.word(3),
            ],
            metadata: [0; 4],
        };
        self.need_aqr_if(Wrong::AckNeedsAqr)?;
        self.need_post(list, &notice)?;
        if self.errs(Wrong::AckChangesSlot) {
            slot.words[slot::MSG_OFFSET] = packet.offset();
            slot.store(&mut self.receive_ram, index);
        }
        let interrupts = self.post(list, &notice);
        // "taken counts receipts answered done, acks included"
        if !self.errs(Wrong::AckNotCounted) {
            self.count_taken();
        }
        Ok(Answer::done(0, interrupts))
    }

    fn receive_data(&mut self, packet: &Packet, index: SlotIndex) -> Outcome {
        let before = Slot::of(&self.receive_ram, index);
        let mut slot = after_packet(packet, &before);
        // "complete if the result is 0 and the packet had payload or use_msg_size"
        let something = !packet.payload().is_empty() || packet.uses_msg_size();
        let something = something || self.errs(Wrong::NotifiesOnNothing);
        let mut interrupts = 0;
        if slot.bytes_to_go() == 0 && something {
            interrupts = self.complete(packet, index, &slot)?;
            if !self.errs(Wrong::CompletionKeepsMetadata) {
                slot.clear_metadata();
            }
        }
        self.store_payload(packet, &before);
        slot.store(&mut self.receive_ram, index);
        self.count_taken();
        Ok(Answer::done(0, interrupts))
    }

    /// "Then do_acks puts slot plus 2^31 on AQR (H), notify posts". All or nothing: refuses
    /// before it changes anything.
    fn complete(&mut self, packet: &Packet, index: SlotIndex, slot: &Slot) -> Result<u32, Reply> {
        // stalled: "a needed notice or AQR entry has no room"
        let aqr_full = self.saved.aqr.is_full() && !self.errs(Wrong::AqrFullForgotten);
        let ack_stalls = slot.does_acks() && aqr_full;
        if ack_stalls && !self.errs(Wrong::PostsBeforeAqrFull) {
            return Err(Reply::Stalled);
        }
        let mut interrupts = 0;
        if slot.notifies() {
            let list = list_of_valid_slot(slot.note_index());
            let notice = message_notice(packet, slot, self.wrong);
            self.need_post(list, &notice)?;
            interrupts |= self.post(list, &notice);
        }
        // Only the mistaken engine comes so far with AQR full.
        if ack_stalls {
            return Err(Reply::Stalled);
        }
        if slot.does_acks() {
            interrupts |= self.push_ack(index.number());
        }
        Ok(interrupts)
    }

    /// Only a completion with do_acks needs an AQR entry; two mistaken engines ask for more.
    fn need_aqr_if(&self, mistaken: Wrong) -> Result<(), Reply> {
        if self.errs(mistaken) && self.saved.aqr.is_full() {
            Err(Reply::Stalled)
        } else {
            Ok(())
        }
    }

    /// "payload to base plus offset".
    fn store_payload(&mut self, packet: &Packet, slot: &Slot) {
        let from = slot.words[slot::BASE] as usize + packet.offset() as usize;
        let payload = packet.payload();
        self.data[from..from + payload.len()].copy_from_slice(payload);
    }

    /// "Both packet counts run modulo 2^32".
    fn count_taken(&mut self) {
        self.saved.taken = if self.errs(Wrong::CountsSaturate) {
            self.saved.taken.saturating_add(1)
        } else {
            self.saved.taken.wrapping_add(1)
        };
    }
}

/// A valid slot's indices name lists: "ack_note_index below 64, note_index below 64 if notify".
fn list_of_valid_slot(number: u32) -> ListIndex {
    ListIndex::new(number).expect("a valid slot names a list below 64")
}

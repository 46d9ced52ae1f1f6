//! What a packet says by itself, and what it makes of a slot.

use super::notice::Notice;
use super::packet::{check, Packet};
use super::slot::{self, Slot};
use crate::wrong::Wrong;

/// "zero and reserved fields, meta_len as meta_cnt, ack is 20 bytes (H)".
pub fn zero_fields_hold(packet: &Packet) -> bool {
    let most = if packet.has_metadata() { 4 } else { 0 };
    packet.word(1) & 0xF == 0
        && packet.word(2) & 1 << 28 == 0
        && packet.word(3) >> 28 == 0
        && packet.word(4) & 0xFFFF == 0
        && packet.meta_len() <= most
        && (!packet.is_ack() || packet.length() == 20)
}

/// "body check or its padding"; an empty payload has neither.
pub fn body_check_holds(packet: &Packet, padding_free: bool) -> bool {
    let payload = packet.payload();
    if payload.is_empty() {
        return true;
    }
    let (body_check, padding) = packet.body_check_and_padding();
    body_check == check(&[payload]) && (padding == 0 || padding_free)
}

/// "use_msg_size stores msg_size and adds it to bytes_to_go".
pub fn risen_bytes_to_go(packet: &Packet, slot: &Slot) -> i64 {
    let added = if packet.uses_msg_size() {
        packet.msg_size()
    } else {
        0
    };
    i64::from(slot.bytes_to_go()) + i64::from(added)
}

/// "bytes_to_go falls by the payload".
pub fn new_bytes_to_go(packet: &Packet, slot: &Slot) -> i64 {
    risen_bytes_to_go(packet, slot) - packet.payload().len() as i64
}

/// The slot as the packet leaves it, before a completion clears words 7 to 11.
pub fn after_packet(packet: &Packet, before: &Slot) -> Slot {
    let mut slot = *before;
    if packet.uses_msg_size() {
        slot.words[slot::MSG_SIZE] = packet.msg_size();
    }
    // "use_msg_offset stores the header's offset"
    if packet.uses_msg_offset() {
        slot.words[slot::MSG_OFFSET] = packet.offset();
    }
    // "metadata, only if the packet has the flag, is stored with flag and length in words 7 to 11"
    if packet.has_metadata() {
        slot.words[slot::META] = packet.word(3) & 0x0F00_0000;
        slot.words[slot::METADATA..slot::METADATA + 4].copy_from_slice(&packet.metadata());
    }
    slot.words[slot::BYTES_TO_GO] = new_bytes_to_go(packet, before) as i32 as u32;
    slot
}

/// "Message: word 0 slot 16, src_node 12, zero 4; word 1 zero 2, ack 1, zero 1, incarnation 4,
/// offset 24; word 2 as packet word 3; next; four metadata words or zeros. Offset, msg_size and
/// metadata are the slot's".
pub fn message_notice(packet: &Packet, slot: &Slot, wrong: Option<Wrong>) -> Notice {
    let offset = match wrong {
        Some(Wrong::NoticeOfPacketOffset) => packet.offset(),
        _ => slot.words[slot::MSG_OFFSET],
    };
    Notice {
        words: [
            packet.word(1),
            packet.incarnation() << 24 | offset,
            slot.words[slot::META] | slot.words[slot::MSG_SIZE],
        ],
        metadata: slot.metadata(wrong),
    }
}

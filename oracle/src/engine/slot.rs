//! 01, "Receipt": the words of a slot, and when a slot is valid.

use super::layout::{SlotIndex, LARGEST_24, LISTS, SLOT_WORDS};
use crate::wrong::Wrong;

/// "Slot words: base; size; note_index 16, valid, indirect, do_acks, notify, reserve 12;
/// bytes_to_go, signed; msg_size; msg_offset; ack_note_index 16, unused 16; meta flag and length
/// as in packet word 3; metadata 8 to 11."
pub const BASE: usize = 0;
pub const SIZE: usize = 1;
pub const CONTROL: usize = 2;
pub const BYTES_TO_GO: usize = 3;
pub const MSG_SIZE: usize = 4;
pub const MSG_OFFSET: usize = 5;
pub const ACK_NOTE_INDEX: usize = 6;
pub const META: usize = 7;
pub const METADATA: usize = 8;

const VALID: u32 = 1 << 15;
const INDIRECT: u32 = 1 << 14;
const DO_ACKS: u32 = 1 << 13;
const NOTIFY: u32 = 1 << 12;
const RESERVE: u32 = 0xFFF;
/// Word 7: "only flag and length", where packet word 3 has them.
const META_FLAG: u32 = 1 << 27;
const META_FLAG_AND_LENGTH: u32 = 0x0F00_0000;

/// A copy of one slot's words, to ask questions of and to change before storing.
#[derive(Clone, Copy, Debug)]
pub struct Slot {
    pub words: [u32; SLOT_WORDS],
}

impl Slot {
    pub fn of(receive_ram: &[u32], index: SlotIndex) -> Slot {
        let from = index.first_word();
        let mut words = [0; SLOT_WORDS];
        words.copy_from_slice(&receive_ram[from..from + SLOT_WORDS]);
        Slot { words }
    }

    pub fn store(&self, receive_ram: &mut [u32], index: SlotIndex) {
        let from = index.first_word();
        receive_ram[from..from + SLOT_WORDS].copy_from_slice(&self.words);
    }

    fn control_has(&self, bit: u32) -> bool {
        self.words[CONTROL] & bit != 0
    }

    pub fn does_acks(&self) -> bool {
        self.control_has(DO_ACKS)
    }

    pub fn notifies(&self) -> bool {
        self.control_has(NOTIFY)
    }

    pub fn note_index(&self) -> u32 {
        self.words[CONTROL] >> 16
    }

    pub fn ack_note_index(&self) -> u32 {
        self.words[ACK_NOTE_INDEX] >> 16
    }

    /// "bytes_to_go, signed".
    pub fn bytes_to_go(&self) -> i32 {
        self.words[BYTES_TO_GO] as i32
    }

    /// "four metadata words or zeros".
    pub fn metadata(&self, wrong: Option<Wrong>) -> [u32; 4] {
        let flag = self.words[META] & META_FLAG != 0;
        if flag || wrong == Some(Wrong::NoticeOfUnflagged) {
            [0, 1, 2, 3].map(|word| self.words[METADATA + word])
        } else {
            [0; 4]
        }
    }

    /// "Valid needs: valid 1, indirect and reserve 0, base plus size inside data memory,
    /// bytes_to_go within 16,777,215 either way, ack_note_index below 64, note_index below 64 if
    /// notify, words 4 and 5 below 2^24, word 7 only flag and length."
    pub fn is_valid(&self, data_bytes: u64, wrong: Option<Wrong>) -> bool {
        let end = u64::from(self.words[BASE]) + u64::from(self.words[SIZE]);
        let passes = |clause: bool, unchecked: Wrong| clause || wrong == Some(unchecked);
        let [msg_size, msg_offset] = [MSG_SIZE, MSG_OFFSET].map(|word| self.words[word]);
        let only_flag_and_length = self.words[META] & !META_FLAG_AND_LENGTH == 0;
        self.control_has(VALID)
            && !self.control_has(INDIRECT)
            && passes(!self.control_has(RESERVE), Wrong::ReserveUnchecked)
            && end <= data_bytes
            && in_range(i64::from(self.bytes_to_go()))
            && self.ack_note_index() < LISTS
            && (!self.notifies() || self.note_index() < LISTS)
            && passes(msg_size <= LARGEST_24, Wrong::MsgSizeUnchecked)
            && passes(msg_offset <= LARGEST_24, Wrong::MsgOffsetUnchecked)
            && passes(only_flag_and_length, Wrong::MetaWordUnchecked)
    }

    /// "slot words 7 to 11 go to 0".
    pub fn clear_metadata(&mut self) {
        self.words[META..METADATA + 4].fill(0);
    }
}

/// "beyond 16,777,215 either way (H)".
pub fn in_range(bytes_to_go: i64) -> bool {
    bytes_to_go.abs() <= i64::from(LARGEST_24)
}

//! 01, "Sending": a descriptor's words and the go rule.

use super::layout::{DESCRIPTOR_WORDS, DIO_END, DIO_FROM, LARGEST_24, LISTS};
use crate::wrong::Wrong;

/// "Descriptor words 0 to 6, 8 to 11".
pub const MSG_ADDRESS: usize = 0;
pub const ROUTE: usize = 1;
pub const SLOT_AND_LIST: usize = 2;
pub const CONTROL0: usize = 3;
pub const BYTES_TO_GO: usize = 4;
pub const CONTROL1: usize = 5;
pub const STATUS2: usize = 6;
pub const METADATA: usize = 8;

/// "control0 (use_msg_size, use_msg_offset, ack_pkt, reserved, incarnation 4, offset 24)".
pub mod control0 {
    pub const USE_MSG_SIZE: u32 = 1 << 31;
    pub const USE_MSG_OFFSET: u32 = 1 << 30;
    pub const ACK_PKT: u32 = 1 << 29;
    pub const RESERVED: u32 = 1 << 28;
    pub const OFFSET: u32 = 0x00FF_FFFF;
}

/// "control1 (direct_io, control_pkt, notify, go, meta_data, meta_cnt 3, msg_size 24)".
pub mod control1 {
    pub const DIRECT_IO: u32 = 1 << 31;
    pub const CONTROL_PKT: u32 = 1 << 30;
    pub const NOTIFY: u32 = 1 << 29;
    pub const GO: u32 = 1 << 28;
    pub const META_DATA: u32 = 1 << 27;
    pub const META_CNT: u32 = 7 << 24;
    pub const MSG_SIZE: u32 = 0x00FF_FFFF;
}

/// "status2 (busy, stalled, done)".
pub mod status2 {
    pub const STALLED: u32 = 1 << 30;
    pub const DONE: u32 = 1 << 29;
}

/// A copy of one descriptor's sixteen words, to ask questions of.
#[derive(Clone, Copy, Debug)]
pub struct Descriptor {
    pub words: [u32; DESCRIPTOR_WORDS],
}

impl Descriptor {
    pub fn of(send_ram: &[u32], number: usize) -> Descriptor {
        let from = number * DESCRIPTOR_WORDS;
        let mut words = [0; DESCRIPTOR_WORDS];
        words.copy_from_slice(&send_ram[from..from + DESCRIPTOR_WORDS]);
        Descriptor { words }
    }

    fn control1_has(&self, bit: u32) -> bool {
        self.words[CONTROL1] & bit != 0
    }

    /// "Active means go 1 and done 0."
    pub fn is_active(&self) -> bool {
        self.control1_has(control1::GO) && self.words[STATUS2] & status2::DONE == 0
    }

    pub fn is_direct(&self) -> bool {
        self.control1_has(control1::DIRECT_IO)
    }

    pub fn is_control_pkt(&self) -> bool {
        self.control1_has(control1::CONTROL_PKT)
    }

    pub fn notifies(&self) -> bool {
        self.control1_has(control1::NOTIFY)
    }

    pub fn has_metadata(&self) -> bool {
        self.control1_has(control1::META_DATA)
    }

    pub fn meta_cnt(&self) -> u32 {
        (self.words[CONTROL1] & control1::META_CNT) >> 24
    }

    pub fn msg_size(&self) -> u32 {
        self.words[CONTROL1] & control1::MSG_SIZE
    }

    pub fn bytes_to_go(&self) -> u32 {
        self.words[BYTES_TO_GO]
    }

    pub fn offset(&self) -> u32 {
        self.words[CONTROL0] & control0::OFFSET
    }

    pub fn note_index(&self) -> u32 {
        self.words[SLOT_AND_LIST] & 0xFFFF
    }

    /// "Payload is the next 128 bytes or the rest; control_pkt sends none."
    pub fn next_payload(&self) -> u32 {
        if self.is_control_pkt() {
            0
        } else {
            self.bytes_to_go().min(128)
        }
    }

    /// "With nothing left, or control_pkt": the next packet is the last.
    pub fn next_is_last(&self) -> bool {
        self.is_control_pkt() || self.next_payload() == self.bytes_to_go()
    }

    /// What "a control1 write with go 1 needs", for a message of `size` bytes.
    pub fn keeps_go_rule(&self, size: u32, data_bytes: u64, wrong: Option<Wrong>) -> bool {
        let sized = !self.is_control_pkt() || wrong == Some(Wrong::ControlPktSizeChecked);
        self.metadata_rule()
            && self.control0_rule()
            && (!self.notifies() || self.note_index() < LISTS)
            && (!sized || self.size_rule(size, data_bytes, wrong))
    }

    /// "meta_cnt at most 4, and 0 without meta_data".
    fn metadata_rule(&self) -> bool {
        let most = if self.has_metadata() { 4 } else { 0 };
        self.meta_cnt() <= most
    }

    /// "control0's reserved bit 0; ack_pkt only with control_pkt and no metadata".
    fn control0_rule(&self) -> bool {
        let word = self.words[CONTROL0];
        let is_ack = word & control0::ACK_PKT != 0;
        let ack_allowed = self.is_control_pkt() && !self.has_metadata();
        word & control0::RESERVED == 0 && (!is_ack || ack_allowed)
    }

    /// "without control_pkt, a size that is a multiple of 4, offset plus size at most
    /// 16,777,215, and address plus size at most the data memory's length, or for direct_io an
    /// address that is a multiple of 4, at least 0x100, and plus size at most 0x1000".
    fn size_rule(&self, size: u32, data_bytes: u64, wrong: Option<Wrong>) -> bool {
        let address = self.words[MSG_ADDRESS];
        let end = u64::from(address) + u64::from(size);
        let offset = match wrong {
            Some(Wrong::GoForgetsOffset) => 0,
            _ => u64::from(self.offset()),
        };
        let dio_end = match wrong {
            Some(Wrong::DioEndExcluded) => u64::from(DIO_END) - 1,
            _ => u64::from(DIO_END),
        };
        let address_fits = if self.is_direct() {
            address % 4 == 0 && address >= DIO_FROM && end <= dio_end
        } else {
            end <= data_bytes
        };
        size % 4 == 0 && offset + u64::from(size) <= u64::from(LARGEST_24) && address_fits
    }
}

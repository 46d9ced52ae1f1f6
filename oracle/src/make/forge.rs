//! Packets made for a slot's present state, most of them good, many with defects.

use super::driver::Driver;
use crate::draft::*;
use crate::engine::layout::{SlotIndex, LARGEST_24};
use crate::engine::{Machine, Slot};
use crate::rng::Rng;

/// What a forged packet shall do to its message.
#[derive(Clone, Copy, Debug)]
enum Aim {
    /// bytes_to_go becomes 0.
    Complete,
    /// The size arrives, more is to come.
    Begin,
    /// A piece without the size.
    Piece,
    /// Neither payload nor use_msg_size: changes no count, completes nothing.
    Nothing,
    /// bytes_to_go comes to the border of its range, or just beyond.
    Border,
    /// "ack: notice to ack_note_index, no slot change, end"
    Ack,
}

const AIMS: [(u32, Aim); 6] = [
    (45, Aim::Complete),
    (12, Aim::Begin),
    (14, Aim::Piece),
    (10, Aim::Nothing),
    (5, Aim::Border),
    (14, Aim::Ack),
];

fn slot(machine: &Machine, number: u32) -> Option<Slot> {
    SlotIndex::new(number).map(|index| Slot::of(&machine.receive_ram, index))
}

/// The size of a slot's buffer, if it is open.
pub fn open_size(machine: &Machine, number: u32) -> Option<u32> {
    let open = |slot: &Slot| {
        number < machine.saved.slot_count && slot.is_valid(machine.data.len() as u64, None)
    };
    slot(machine, number).filter(open).map(|slot| slot.words[1])
}

/// A packet that the slot will take, as far as the state allows any.
pub fn good_draft(machine: &Machine, rng: &mut Rng, slot: u32) -> Draft {
    let any = rng.below(4096);
    let mut draft = Draft::default()
        .with(DST_NODE, machine.saved.node())
        .with(DST_SLOT, slot)
        .with(SRC_NODE, rng.pick(&[7, machine.saved.node(), 0, 4095, any]))
        .with(INCARNATION, machine.saved.incarnation())
        .with(MSG_SIZE, rng.below(400));
    if rng.chance(30) {
        draft.set(FAB, rng.word());
        draft.set(MORE_FAB, rng.word());
    }
    let aim = rng.weighted(&AIMS);
    if let Aim::Ack = aim {
        draft.set(ACK_PKT, 1);
        draft.set(OFFSET, rng.word());
        draft.set(USE_MSG_SIZE, rng.below(2));
        draft.set(USE_MSG_OFFSET, rng.below(2));
        return draft;
    }
    place_payload(machine, rng, &mut draft, matches!(aim, Aim::Nothing));
    take_aim(machine, rng, &mut draft, aim);
    draft.set(USE_MSG_OFFSET, u32::from(rng.chance(40)));
    if rng.chance(30) {
        draft.set(META_FLAG, 1);
        draft.set(META_LEN, rng.below(5));
        draft.metadata = [(); 4].map(|()| rng.word());
    }
    draft
}

/// Payload and offset inside the slot's buffer, often up to its end.
fn place_payload(machine: &Machine, rng: &mut Rng, draft: &mut Draft, empty: bool) {
    let size = slot(machine, draft.get(DST_SLOT)).map_or(0, |slot| slot.words[1]);
    let size = size.min(machine.data.len() as u32);
    let any = 4 * rng.below(33);
    let wanted = rng.pick(&[0, 4, 124, 128, any, any]);
    let payload = if empty { 0 } else { wanted.min(size & !3) };
    let last = size - payload;
    let offset = match rng.below(4) {
        0 => 0,
        1 => last,
        _ => rng.range(0, last),
    };
    draft.set(OFFSET, offset);
    draft.payload = rng.bytes(payload as usize);
}

/// Sets use_msg_size and msg_size for the aim.
fn take_aim(machine: &Machine, rng: &mut Rng, draft: &mut Draft, aim: Aim) {
    let to_go = slot(machine, draft.get(DST_SLOT)).map_or(0, |slot| i64::from(slot.bytes_to_go()));
    let payload = draft.payload.len() as i64;
    let goal = match aim {
        Aim::Complete if payload > 0 && to_go == payload => return,
        Aim::Complete => 0,
        Aim::Begin => i64::from(rng.range(0, 600)),
        Aim::Border => i64::from(LARGEST_24) + rng.pick(&[0, 0, 1, -4, 4, -128, 124]),
        Aim::Piece | Aim::Nothing | Aim::Ack => return,
    };
    let msg_size = goal - to_go + payload;
    let msg_size = msg_size.clamp(0, i64::from(LARGEST_24)) as u32;
    draft.set(USE_MSG_SIZE, 1);
    draft.set(MSG_SIZE, msg_size);
}

/// One defect, or a step to an edge; the checks will be right unless they are the defect.
pub fn spoil(machine: &Machine, rng: &mut Rng, draft: &mut Draft) {
    match rng.below(20) {
        0 => draft.set(DST_NODE, other(rng, draft.get(DST_NODE), 12)),
        1..=2 => spoil_slot(machine, rng, draft),
        3..=4 => draft.set(INCARNATION, other(rng, draft.get(INCARNATION), 4)),
        5..=7 => spoil_offset(machine, rng, draft),
        // "new bytes_to_go beyond 16,777,215"
        8 => take_aim(machine, rng, draft, Aim::Border),
        9..=11 => spoil_zeros(rng, draft),
        // "meta_len as meta_cnt"
        12 => {
            draft.set(META_FLAG, rng.below(2));
            draft.set(META_LEN, rng.range(1, 7));
        }
        // "ack is 20 bytes"
        13 => {
            let payload = rng.pick(&[0, 4, 128]);
            draft.payload = rng.bytes(payload);
            draft.set(ACK_PKT, 1);
            draft.set(META_FLAG, rng.below(2));
            draft.set(META_LEN, rng.below(2) * draft.get(META_FLAG));
        }
        // "body check or its padding"
        14..=15 => draft.body_zeros = 1 << rng.below(16),
        16..=17 => draft.body_check_flip = 1 << rng.below(16),
        18 => draft.header_check_flip = 1 << rng.below(16),
        _ => {
            draft.payload.truncate(4 * rng.index(33));
            draft.set(USE_MSG_SIZE, rng.below(2));
        }
    }
}

/// "slot at or above the count (H)", or just another slot.
fn spoil_slot(machine: &Machine, rng: &mut Rng, draft: &mut Draft) {
    let count = machine.saved.slot_count;
    let any = rng.below(64);
    let number = rng.pick(&[count, count, count.wrapping_add(1), 64, 0xFFFF, any, any]);
    draft.set(DST_SLOT, number);
}

/// "offset above buffer size", "offset plus payload above it".
fn spoil_offset(machine: &Machine, rng: &mut Rng, draft: &mut Draft) {
    let size = slot(machine, draft.get(DST_SLOT)).map_or(0, |slot| slot.words[1]);
    let last = size.wrapping_sub(draft.payload.len() as u32);
    let offset = match rng.below(5) {
        0 => LARGEST_24,
        1..=2 => last.wrapping_add(rng.pick(&[1, 4])),
        _ => size.wrapping_add(rng.pick(&[0, 1, 1, 4, 128])),
    };
    draft.set(OFFSET, offset);
}

/// "zero and reserved fields".
fn spoil_zeros(rng: &mut Rng, draft: &mut Draft) {
    match rng.below(4) {
        0 => draft.set(ZERO1, 1 << rng.below(4)),
        1 => draft.set(RESERVED, 1),
        2 => draft.set(ZERO3, 1 << rng.below(4)),
        _ => draft.header_zeros = 1 << rng.below(16),
    }
}

/// A number of so many bits that is another one.
fn other(rng: &mut Rng, number: u32, bits: u32) -> u32 {
    let mask = (1 << bits) - 1;
    match rng.below(3) {
        0 => number ^ 1 << rng.below(bits),
        1 => (number + 1) & mask,
        _ => rng.word() & mask,
    }
}

impl Driver<'_> {
    /// A packet for one of the slots; about a third of them with defects.
    pub fn forge(&mut self) {
        self.forge_with_defects(35);
    }

    /// A packet for one of the slots; most of them with defects.
    pub fn forge_defective(&mut self) {
        self.forge_with_defects(85);
    }

    fn forge_with_defects(&mut self, percent: u32) {
        let slot = self.open_slot();
        let mut draft = good_draft(&self.machine, &mut self.rng, slot);
        if self.rng.chance(percent) {
            for _ in 0..self.rng.pick(&[1, 1, 1, 1, 2, 2, 3]) {
                spoil(&self.machine, &mut self.rng, &mut draft);
            }
        }
        let mut packet = draft.encode();
        if self.rng.chance(percent / 6) {
            packet = self.damaged(packet);
        }
        self.receive_and_look(packet, slot);
    }

    pub fn receive_and_look(&mut self, packet: Vec<u8>, slot: u32) {
        self.receive(packet);
        if slot < 64 && self.chance_to_look(25) {
            self.look_at_slot(slot);
        }
        if self.chance_to_look(12) {
            self.look_at_counts();
        }
    }

    /// One of the episode's slots, mostly one that takes packets if there is any.
    fn open_slot(&mut self) -> u32 {
        let is_open = |slot: &u32| open_size(&self.machine, *slot).is_some();
        let open: Vec<u32> = self.slots.iter().copied().filter(is_open).collect();
        if open.is_empty() || self.rng.chance(10) {
            self.some_slot()
        } else {
            self.rng.pick(&open)
        }
    }
}

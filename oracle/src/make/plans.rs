//! Messages planned in a descriptor's words, and bent at every edge of the go rule.

use crate::engine::descriptor::*;
use crate::engine::layout::{DIO_END, DIO_FROM, LARGEST_24};
use crate::engine::Machine;
use crate::rng::Rng;

/// Where a message shall go.
#[derive(Clone, Copy, Debug)]
pub struct Goal {
    pub slot: u32,
    /// The most bytes that fit there.
    pub most: u32,
    pub note_index: u32,
}

/// A message that keeps the go rule: its descriptor's words, go set, bytes_to_go the size.
pub fn plan(machine: &Machine, rng: &mut Rng, goal: Goal) -> Descriptor {
    let mut plan = Descriptor { words: [0; 16] };
    let size = place_message(&mut plan, machine, rng, goal.most);
    plan.words[ROUTE] = some_route(machine, rng);
    plan.words[SLOT_AND_LIST] = goal.slot << 16 | goal.note_index & 0xFFFF;
    let offset = rng.range(0, goal.most - size);
    plan.words[CONTROL0] = some_use_bits(rng) | some_incarnation(machine, rng) << 24 | offset;
    plan.words[CONTROL1] |= control1::GO;
    if rng.chance(45) && goal.note_index < 64 {
        plan.words[CONTROL1] |= control1::NOTIFY;
    }
    add_metadata_or_control(&mut plan, rng);
    plan
}

/// Chooses DMA or direct_io, size and address; returns the size.
fn place_message(plan: &mut Descriptor, machine: &Machine, rng: &mut Rng, most: u32) -> u32 {
    let direct = rng.chance(35) || machine.data.len() < 4;
    let room = if direct {
        DIO_END - DIO_FROM
    } else {
        machine.data.len() as u32
    };
    let any = 4 * rng.below(160);
    let long = 4 * rng.below(600);
    let wanted = rng.pick(&[0, 4, 124, 128, 132, 256, 300, any, any, long]);
    let size = wanted.min(room & !3).min(most & !3);
    let address = match rng.below(4) {
        0 => 0,
        1 => room - size,
        _ => rng.range(0, room - size),
    };
    set_size(plan, size);
    plan.words[MSG_ADDRESS] = address;
    if direct {
        plan.words[MSG_ADDRESS] = DIO_FROM + (address & !3);
        plan.words[CONTROL1] |= control1::DIRECT_IO;
    }
    size
}

/// "fab 4, dst_node 12, fab 16": mostly to ourselves.
fn some_route(machine: &Machine, rng: &mut Rng) -> u32 {
    let node = if rng.chance(90) {
        machine.saved.node()
    } else {
        rng.below(4096)
    };
    let fab = if rng.chance(30) {
        rng.word() & 0xF000_FFFF
    } else {
        0
    };
    fab | node << 16
}

fn some_use_bits(rng: &mut Rng) -> u32 {
    let mut bits = 0;
    if rng.chance(80) {
        bits |= control0::USE_MSG_SIZE;
    }
    if rng.chance(40) {
        bits |= control0::USE_MSG_OFFSET;
    }
    bits
}

fn some_incarnation(machine: &Machine, rng: &mut Rng) -> u32 {
    if rng.chance(93) {
        machine.saved.incarnation()
    } else {
        rng.below(16)
    }
}

/// Metadata with a third of the messages; a control_pkt now and then, perhaps an ack_pkt.
fn add_metadata_or_control(plan: &mut Descriptor, rng: &mut Rng) {
    if rng.chance(35) {
        plan.words[CONTROL1] |= control1::META_DATA | rng.below(5) << 24;
        for word in &mut plan.words[METADATA..METADATA + 4] {
            *word = rng.word();
        }
    }
    if rng.chance(22) {
        plan.words[CONTROL1] |= control1::CONTROL_PKT;
        if rng.chance(40) {
            plan.words[CONTROL1] &= !(control1::META_DATA | control1::META_CNT);
            plan.words[CONTROL0] |= control0::ACK_PKT;
        }
    }
}

/// Sets the size: bytes_to_go, and msg_size as far as 24 bits hold it.
fn set_size(plan: &mut Descriptor, size: u32) {
    plan.words[BYTES_TO_GO] = size;
    plan.words[CONTROL1] = plan.words[CONTROL1] & !control1::MSG_SIZE | size & control1::MSG_SIZE;
}

/// Moves a plan to an edge of the go rule: on it, just inside, or just outside.
pub fn bend(plan: &mut Descriptor, machine: &Machine, rng: &mut Rng) {
    match rng.below(12) {
        0..=1 => bend_offset(plan, rng),
        2..=3 => bend_address(plan, machine, rng),
        4..=5 => bend_direct(plan, rng),
        6 => bend_note_index(plan, rng),
        7 => bend_metadata(plan, rng),
        // "control0's reserved bit 0"
        8 => plan.words[CONTROL0] |= control0::RESERVED,
        9 => bend_ack(plan, rng),
        10 => bend_size(plan, rng),
        // control_pkt asks nothing of size, offset and address
        _ => {
            plan.words[CONTROL1] |= control1::CONTROL_PKT;
            plan.words[MSG_ADDRESS] = rng.wild_word();
            set_size(plan, rng.wild_word() & LARGEST_24);
        }
    }
}

/// "offset plus size at most 16,777,215".
fn bend_offset(plan: &mut Descriptor, rng: &mut Rng) {
    let last = LARGEST_24 - plan.bytes_to_go().min(LARGEST_24);
    let offset = last + rng.pick(&[0, 0, 1, 1, 4]);
    let offset = offset.min(LARGEST_24);
    plan.words[CONTROL0] = plan.words[CONTROL0] & !control0::OFFSET | offset;
}

/// "with notify, note_index below 64".
fn bend_note_index(plan: &mut Descriptor, rng: &mut Rng) {
    let index = rng.pick(&[63, 64, 65, 127, 0x8000, 0xFFFF]);
    plan.words[SLOT_AND_LIST] = plan.words[SLOT_AND_LIST] & 0xFFFF_0000 | index;
    plan.words[CONTROL1] |= rng.pick(&[control1::NOTIFY, 0]);
}

/// "meta_cnt at most 4, and 0 without meta_data".
fn bend_metadata(plan: &mut Descriptor, rng: &mut Rng) {
    let count = rng.pick(&[0, 1, 4, 5, 6, 7]) << 24;
    let flag = rng.pick(&[control1::META_DATA, control1::META_DATA, 0]);
    plan.words[CONTROL1] &= !(control1::META_DATA | control1::META_CNT);
    plan.words[CONTROL1] |= flag | count;
}

/// "ack_pkt only with control_pkt and no metadata".
fn bend_ack(plan: &mut Descriptor, rng: &mut Rng) {
    plan.words[CONTROL0] |= control0::ACK_PKT;
    plan.words[CONTROL1] &= !rng.pick(&[control1::CONTROL_PKT, 0, control1::META_DATA]);
    plan.words[CONTROL1] |= rng.pick(&[control1::CONTROL_PKT, 0]);
}

/// "a size that is a multiple of 4", and sizes near the memories' ends.
fn bend_size(plan: &mut Descriptor, rng: &mut Rng) {
    let odd = plan.bytes_to_go() | rng.range(1, 3);
    let size = rng.pick(&[odd, odd, 0, 0x0F00, 0x7FFC, 0x8000, 0x8004, 0xFF_FFFC]);
    set_size(plan, size);
}

/// "address plus size at most the data memory's length".
fn bend_address(plan: &mut Descriptor, machine: &Machine, rng: &mut Rng) {
    let end = machine.data.len() as u32 + rng.pick(&[0, 0, 1, 4]);
    let inside = end.wrapping_sub(plan.bytes_to_go());
    plan.words[CONTROL1] &= !control1::DIRECT_IO;
    plan.words[MSG_ADDRESS] = match rng.below(8) {
        0 => u32::MAX,
        1 => 0_u32.wrapping_sub(plan.bytes_to_go()),
        _ => inside,
    };
}

/// "an address that is a multiple of 4, at least 0x100, and plus size at most 0x1000".
fn bend_direct(plan: &mut Descriptor, rng: &mut Rng) {
    let end = 0x1000 + rng.pick(&[0, 0, 4, 8]);
    let inside = end - plan.bytes_to_go().min(0xF00);
    plan.words[CONTROL1] |= control1::DIRECT_IO;
    plan.words[MSG_ADDRESS] = match rng.below(8) {
        0 => rng.pick(&[0, 0xFC, 0xFE, 0xFF]),
        1 => 0x100,
        2 => inside - rng.range(1, 3),
        3 => 0_u32.wrapping_sub(plan.bytes_to_go()),
        _ => inside,
    };
}

//! Descriptors made active in the middle of things.

use super::plans::{bend, plan, Goal};
use super::staging::stage_posting;
use crate::engine::descriptor::*;
use crate::engine::layout::{ListIndex, DESCRIPTORS, DESCRIPTOR_WORDS, LARGEST_24};
use crate::engine::Machine;
use crate::raw::Case;
use crate::rng::Rng;

/// One to four active descriptors that keep the go rule, at any point of their messages.
pub fn plant_some(machine: &mut Machine, rng: &mut Rng) {
    for number in 0..DESCRIPTORS {
        if rng.chance(60) {
            let planted = sound_plan(machine, rng);
            plant(machine, rng, number, &planted);
        }
    }
    machine.saved.last_sender = rng.below(4);
}

pub fn plant(machine: &mut Machine, rng: &mut Rng, number: usize, plan: &Descriptor) {
    let from = number * DESCRIPTOR_WORDS;
    for word in [0, 1, 2, 3, 4, 5, 8, 9, 10, 11] {
        machine.send_ram[from + word] = plan.words[word];
    }
    let other_bits = if rng.chance(30) { rng.word() } else { 0 };
    let stalled = rng.below(2) * status2::STALLED;
    machine.send_ram[from + STATUS2] = (other_bits | stalled) & !status2::DONE;
}

/// A plan, perhaps bent, that keeps the go rule; its msg_size may be more than is left.
fn sound_plan(machine: &Machine, rng: &mut Rng) -> Descriptor {
    let first = some_plan(machine, rng);
    let mut bent = first;
    if rng.chance(40) {
        bend(&mut bent, machine, rng);
    }
    if rng.chance(40) {
        bent.words[CONTROL1] = bent.words[CONTROL1] & !control1::MSG_SIZE | rng.word() & LARGEST_24;
    }
    if bent.is_control_pkt() && rng.chance(30) {
        bent.words[BYTES_TO_GO] = rng.wild_word();
    }
    let data_bytes = machine.data.len() as u64;
    if bent.keeps_go_rule(bent.bytes_to_go(), data_bytes, None) {
        bent
    } else {
        first
    }
}

pub fn some_plan(machine: &Machine, rng: &mut Rng) -> Descriptor {
    let set: Vec<ListIndex> = ListIndex::all()
        .filter(|&list| machine.head(list) != 0)
        .collect();
    let note_index = if set.is_empty() || rng.chance(20) {
        rng.below(64)
    } else {
        rng.pick(&set).number()
    };
    let goal = Goal {
        slot: rng.below(64),
        most: rng.pick(&[300, 700, 5_000]),
        note_index,
    };
    plan(machine, rng, goal)
}

/// Planted descriptors, all of which notify one staged list, most with their next packet.
pub fn stage_last_packet(case: &mut Case, rng: &mut Rng) {
    plant_some(&mut case.machine, rng);
    let list = ListIndex::new(rng.pick(&[0, 1, 63])).expect("below 64");
    for number in 0..DESCRIPTORS {
        let words = &mut case.machine.send_ram[DESCRIPTOR_WORDS * number..][..DESCRIPTOR_WORDS];
        words[CONTROL1] |= control1::NOTIFY;
        words[SLOT_AND_LIST] = words[SLOT_AND_LIST] & 0xFFFF_0000 | list.number();
        if words[BYTES_TO_GO] > 128 && rng.chance(70) {
            words[BYTES_TO_GO] = rng.pick(&[0, 4, 124, 128]);
        }
    }
    stage_posting(case, rng, list);
}

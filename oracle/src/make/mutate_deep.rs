//! States changed but mostly left sound: borders, full queues, other lists.

use super::blocks::{any_block, odd_address};
use super::mutate_receipt::{bytes_to_go, full_aqr, slot_words, stage_completion};
use super::planting::{plant_some, stage_last_packet};
use super::staging::{some_queue, stage_posting, tokens, waiting};
use crate::engine::layout::*;
use crate::engine::{Machine, QueueName};
use crate::raw::Case;
use crate::rng::Rng;

/// A change of a case; few make it unsound.
type Mutation = fn(&mut Case, &mut Rng);

/// For every kind of call.
const ANY: &[(u32, Mutation)] = &[
    (4, |case, rng| numbers(&mut case.machine, rng)),
    (2, |case, rng| tokens(&mut case.machine, rng)),
    (2, |case, rng| brim(&mut case.machine, rng)),
    (2, |case, rng| waiting(&mut case.machine, rng)),
    (3, |case, rng| unread_words(&mut case.machine, rng)),
    (1, |case, rng| resize_data(&mut case.machine, rng)),
    (2, |case, rng| heads_and_places(&mut case.machine, rng)),
    (1, |case, _| case.machine.saved.pcsr0 &= !0x4000_0000),
];

const RECEIPT: &[(u32, Mutation)] = &[
    (3, bytes_to_go),
    (8, slot_words),
    (8, stage_completion),
    (3, full_aqr),
    (4, |case, rng| stage_posting(case, rng, ListIndex::FAULTS)),
];

const SENDING: &[(u32, Mutation)] = &[
    (4, |case, rng| plant_some(&mut case.machine, rng)),
    (4, stage_last_packet),
];

const TAKING: &[(u32, Mutation)] = &[(1, reader)];

const WRITING: &[(u32, Mutation)] = &[
    (2, |case, rng| plant_some(&mut case.machine, rng)),
    (1, |case, rng| waiting(&mut case.machine, rng)),
];

pub fn mutate(case: &mut Case, rng: &mut Rng) {
    let special = match case.kind {
        1 => WRITING,
        3 => RECEIPT,
        4 => SENDING,
        5 => TAKING,
        _ => ANY,
    };
    let chosen = if rng.chance(55) { special } else { ANY };
    rng.weighted(chosen)(case, rng);
}

/// Saved numbers at their borders.
fn numbers(machine: &mut Machine, rng: &mut Rng) {
    let saved = &mut machine.saved;
    saved.taken = rng.pick(&[0, 1, u32::MAX - 1, u32::MAX, u32::MAX]);
    saved.faulted = rng.pick(&[0, 1, u32::MAX - 1, u32::MAX, u32::MAX]);
    saved.int_hi = rng.below(2);
    saved.int_lo = rng.below(2);
    saved.last_sender = rng.below(4);
    saved.send_pointer = rng.pick(&[0, 0xFC, 0x100, 0xFF8, 0xFFC, 0xFFC]);
    saved.receive_pointer = rng.pick(&[0, 0xFFC, 0x1000, 0x1FF8, 0x1FFC, 0x1FFC]);
    if rng.chance(40) {
        saved.slot_count = rng.pick(&[0, 1, 5, 63, 64]);
    }
}

/// NQR or AQR empty, nearly so, nearly full or full, at any place.
fn brim(machine: &mut Machine, rng: &mut Rng) {
    let name = rng.pick(&[QueueName::Nqr, QueueName::Aqr]);
    for entry in 0..QUEUE_ENTRIES as usize {
        machine.receive_ram[name.first_word() + entry] = rng.word();
    }
    *machine.saved.queue_mut(name) = some_queue(rng);
}

/// Words that no rule looks at, or that packets will overwrite.
fn unread_words(machine: &mut Machine, rng: &mut Rng) {
    for word in REST_FROM..RECEIVE_WORDS {
        machine.receive_ram[word] = rng.word();
    }
    for number in 0..DESCRIPTORS {
        for word in [7, 12, 13, 14, 15] {
            machine.send_ram[number * DESCRIPTOR_WORDS + word] = rng.word();
        }
    }
    for slot in 0..SLOTS as usize {
        for word in 12..SLOT_WORDS {
            machine.receive_ram[slot * SLOT_WORDS + word] = rng.word();
        }
    }
    for word in 0..BLOCK_WORDS {
        machine.notices[word] = rng.word();
    }
}

/// A data memory some bytes shorter or longer: slots and active descriptors may not fit.
fn resize_data(machine: &mut Machine, rng: &mut Rng) {
    let change = rng.pick(&[-129, -4, -1, 1, 4]);
    let length = machine.data.len() as i64 + change;
    let length = length.clamp(0, DATA_BYTES_MOST as i64);
    machine.data.resize(length as usize, 0x5A);
}

fn heads_and_places(machine: &mut Machine, rng: &mut Rng) {
    for list in ListIndex::all() {
        match rng.below(8) {
            0 => machine.receive_ram[list.head_word()] = 0,
            1 => machine.receive_ram[list.place_word()] = 0,
            2..=4 => machine.receive_ram[list.head_word()] = any_block(machine, rng),
            5 => machine.receive_ram[list.place_word()] = any_block(machine, rng),
            _ => {}
        }
    }
}

/// The list's place and the next of its block, for take.
fn reader(case: &mut Case, rng: &mut Rng) {
    let machine = &mut case.machine;
    let list = match ListIndex::new(case.a) {
        Some(list) => list,
        None => return,
    };
    if machine.place(list) == 0 || rng.chance(20) {
        machine.receive_ram[list.place_word()] = any_block(machine, rng);
    }
    let block = match machine.block(machine.place(list)) {
        Some(block) => block,
        None => return,
    };
    machine.notices[block.word(NEXT)] = match rng.below(3) {
        0 => odd_address(machine, rng),
        _ => any_block(machine, rng),
    };
    if rng.chance(60) {
        waiting(machine, rng);
    }
}

//! Lists and queues as a posting meets them: tokens, heads, queues empty, full, or nearly so.

use super::blocks::{any_block, block_count};
use crate::engine::layout::{ListIndex, NBQR_FROM, QUEUE_ENTRIES};
use crate::engine::{Machine, Queue};
use crate::raw::Case;
use crate::rng::Rng;

pub fn tokens(machine: &mut Machine, rng: &mut Rng) {
    for list in ListIndex::all() {
        if rng.chance(60) {
            machine.receive_ram[list.token_word()] = rng.wild_word();
        }
    }
}

/// A queue empty, nearly so, nearly full or full, at any place.
pub fn some_queue(rng: &mut Rng) -> Queue {
    let any = rng.below(256);
    Queue {
        place: rng.pick(&[0, 1, 254, 255, 255, any]),
        length: rng.pick(&[0, 1, 2, 255, 256, 256, any]),
    }
}

/// NBQR as such a queue, its waiting entries block addresses.
pub fn waiting(machine: &mut Machine, rng: &mut Rng) {
    for entry in 0..QUEUE_ENTRIES as usize {
        machine.receive_ram[NBQR_FROM + entry] = any_block(machine, rng);
    }
    machine.saved.nbqr = some_queue(rng);
    if block_count(machine) == 0 {
        machine.saved.nbqr.length = 0;
    }
}

/// A list's head and token, NQR and NBQR such that a posting may just go, or just not.
pub fn stage_posting(case: &mut Case, rng: &mut Rng, list: ListIndex) {
    let machine = &mut case.machine;
    if rng.chance(80) {
        machine.receive_ram[list.head_word()] = any_block(machine, rng);
    }
    if rng.chance(50) {
        machine.receive_ram[list.token_word()] = rng.word() | 1;
    }
    if rng.chance(60) {
        machine.saved.nqr.length = rng.pick(&[0, 0, 1, 255, 256, 256]);
        machine.saved.int_lo = rng.below(2);
    }
    if rng.chance(60) {
        waiting(machine, rng);
        let most = machine.saved.nbqr.length;
        machine.saved.nbqr.length = rng.pick(&[0, 1, 1, 2, 256]).min(most);
    }
}

/// A list's head set, NBQR not empty, NQR not full: a posting goes, if there are blocks at all.
pub fn make_room(machine: &mut Machine, rng: &mut Rng, list: ListIndex) {
    waiting(machine, rng);
    if block_count(machine) > 0 {
        machine.receive_ram[list.head_word()] = any_block(machine, rng);
        machine.saved.nbqr.length = machine.saved.nbqr.length.max(1);
    }
    machine.saved.nqr.length = machine.saved.nqr.length.min(QUEUE_ENTRIES - 1);
}

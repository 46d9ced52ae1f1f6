//! States that break one clause of soundness, and memories of another size.

use super::blocks::odd_address;
use super::plans::bend;
use super::planting::{plant, some_plan};
use crate::engine::descriptor::BYTES_TO_GO;
use crate::engine::layout::*;
use crate::engine::{Machine, QueueName};
use crate::raw::Case;
use crate::rng::Rng;

pub fn mutate(case: &mut Case, rng: &mut Rng) {
    let machine = &mut case.machine;
    match rng.below(10) {
        0..=2 => saved_number(machine, rng),
        3 => queue(machine, rng),
        4 => head_or_place(machine, rng),
        5..=6 => waiting_block(machine, rng),
        _ => active_descriptor(machine, rng),
    }
}

/// "a register field beyond its range, a pointer not a multiple of 4, the reset or a reserved
/// PCSR0 bit set, [...] last sender beyond 3".
fn saved_number(machine: &mut Machine, rng: &mut Rng) {
    let saved = &mut machine.saved;
    let wild = rng.wild_word();
    match rng.below(8) {
        0 => saved.pcsr0 |= 0x8000_0000,
        1 => saved.pcsr0 |= 1 << rng.range(20, 29),
        2 => saved.pcsr0 |= 1 << rng.range(12, 15),
        3 => saved.int_hi = rng.pick(&[2, 3, u32::MAX, 1 << 31]),
        4 => saved.int_lo = rng.pick(&[2, 3, u32::MAX, 1 << 31]),
        5 => saved.slot_count = rng.pick(&[64, 65, 66, u32::MAX, wild]),
        6 => saved.last_sender = rng.pick(&[3, 4, 5, u32::MAX, wild]),
        _ if rng.chance(50) => {
            saved.send_pointer = rng.pick(&[1, 2, 3, 0xFFC, 0xFFE, 0x1000, 0xFFFF_FFFC, wild]);
        }
        _ => {
            saved.receive_pointer = rng.pick(&[1, 2, 0x1FFC, 0x1FFE, 0x2000, 0xFFFF_FFFC, wild]);
        }
    }
}

/// "queue place beyond 255 or length beyond 256".
fn queue(machine: &mut Machine, rng: &mut Rng) {
    let name = rng.pick(&QueueName::ALL);
    let wild = rng.wild_word();
    let queue = machine.saved.queue_mut(name);
    if rng.chance(50) {
        queue.place = rng.pick(&[255, 256, 257, u32::MAX, wild]);
    } else {
        queue.length = rng.pick(&[256, 257, 258, u32::MAX, wild]);
    }
}

/// "a head, reader's place [...] that is no block address".
fn head_or_place(machine: &mut Machine, rng: &mut Rng) {
    let list = ListIndex::new(rng.pick(&[0, 1, 62, 63])).expect("below 64");
    let word = rng.pick(&[list.head_word(), list.place_word()]);
    machine.receive_ram[word] = odd_address(machine, rng);
}

/// "[a] waiting block that is no block address": the oldest, the newest, any, or one just out of
/// the queue, which is nobody's business.
fn waiting_block(machine: &mut Machine, rng: &mut Rng) {
    let length = machine.saved.nbqr.length;
    let newest = length.wrapping_sub(1) % QUEUE_ENTRIES;
    let any = rng.below(length.clamp(1, QUEUE_ENTRIES));
    let nth = rng.pick(&[0, newest, any, length % QUEUE_ENTRIES]);
    if machine.saved.nbqr.place < QUEUE_ENTRIES {
        let word = machine.entry_word(QueueName::Nbqr, nth);
        machine.receive_ram[word] = odd_address(machine, rng);
    }
}

/// "an active descriptor failing the go rule for bytes_to_go": each clause, and its edge.
fn active_descriptor(machine: &mut Machine, rng: &mut Rng) {
    let mut plan = some_plan(machine, rng);
    bend(&mut plan, machine, rng);
    match rng.below(8) {
        // all 32 bits of bytes_to_go count
        0 => plan.words[BYTES_TO_GO] |= 1 << rng.range(24, 31),
        1 => plan.words[BYTES_TO_GO] = rng.wild_word(),
        _ => {}
    }
    let number = rng.index(DESCRIPTORS);
    plant(machine, rng, number, &plan);
}

/// sizes: "a memory has another size".
pub fn missize(case: &mut Case, rng: &mut Rng) {
    let machine = &mut case.machine;
    match rng.below(4) {
        0 => {
            let words = rng.pick(&[0, 64, 1023, 1023, 1025, 1025, 2048]);
            machine.send_ram.resize(words, 7);
        }
        1 => {
            let words = rng.pick(&[0, 1024, 2047, 2047, 2049, 2049, 4096]);
            machine.receive_ram.resize(words, 7);
        }
        2 => machine.data.resize(
            rng.pick(&[32_767, 32_768, 32_769, 32_769, 32_772, 65_536]),
            7,
        ),
        _ => {
            let words = machine.notices.len();
            let near = rng.pick(&[words - 1, words + 1, words - 4, words + 4]);
            let words = rng.pick(&[0, 7, 8, 2_047, 2_056, 4_096, near, near, near]);
            machine.notices.resize(words, 7);
        }
    }
}

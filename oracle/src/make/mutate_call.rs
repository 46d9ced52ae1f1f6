//! Another call on the same state: odd registers, lists, kinds, packets.

use super::blocks::{any_block, odd_address};
use super::forge::{good_draft, open_size, spoil};
use super::looks::{any_register, value_for_register};
use super::plans::bend;
use super::planting::{plant, some_plan};
use super::staging::waiting;
use crate::engine::descriptor::{status2, BYTES_TO_GO, CONTROL1, STATUS2};
use crate::engine::layout::{DESCRIPTORS, DESCRIPTOR_WORDS, LISTS_FROM, NQR_FROM, SLOTS};
use crate::engine::Ram;
use crate::raw::Case;
use crate::rng::Rng;

pub fn mutate(case: &mut Case, rng: &mut Rng) {
    match rng.below(14) {
        0 => make_reset(case, rng),
        1 | 13 => {
            case.kind = rng.pick(&[0, 6, 7, 255, 256, 257, 259, 0x8000_0001, u32::MAX]);
        }
        2..=4 => {
            case.kind = rng.range(1, 2);
            case.a = any_register(rng);
            case.b = value_for_register(rng, case.a);
        }
        5 => {
            case.kind = 5;
            case.a = rng.pick(&[63, 64, 65, 255, 256, 1 << 31, u32::MAX]);
        }
        6 => make_any_packet(case, rng),
        7..=8 => make_block_write(case, rng),
        9..=10 => make_go(case, rng),
        _ => make_ram_access(case, rng),
    }
}

/// "A PCSR0 write with reset skips 14": good ones, and bad values.
pub fn make_reset(case: &mut Case, rng: &mut Rng) {
    case.kind = 1;
    case.a = 0;
    case.b = 0x8000_0000 | rng.word() & 0x400F_0FFF;
    match rng.below(8) {
        0 => case.b |= 1 << rng.range(12, 15),
        1 => case.b |= 1 << rng.range(20, 29),
        2 => case.b &= !0x8000_0000,
        3 => case.a = rng.pick(&[1, 2, 3, 4, 0x100, 0x1000, 1 << 31]),
        _ => {}
    }
}

fn make_any_packet(case: &mut Case, rng: &mut Rng) {
    case.kind = 3;
    let length = match rng.below(4) {
        0 => rng.pick(&[0, 172, 256, 276, 1024]),
        1 => 4 * rng.index(50),
        _ => rng.index(201),
    };
    case.rooms.packet.resize(length, 0);
    if rng.chance(30) {
        case.rooms.packet = rng.bytes(length);
    }
}

/// A packet that one of the open slots would take, or with one defect.
pub fn forge_packet(case: &mut Case, rng: &mut Rng) {
    let is_open = |slot: &u32| open_size(&case.machine, *slot).is_some();
    let open: Vec<u32> = (0..SLOTS).filter(is_open).collect();
    if open.is_empty() {
        return;
    }
    let slot = rng.pick(&open);
    let mut draft = good_draft(&case.machine, rng, slot);
    if rng.chance(40) {
        spoil(&case.machine, rng, &mut draft);
    }
    case.rooms.packet = draft.encode();
}

/// A control1 write with go 1 to a descriptor whose other words are planned, or bent.
fn make_go(case: &mut Case, rng: &mut Rng) {
    let machine = &mut case.machine;
    let mut plan = some_plan(machine, rng);
    if rng.chance(60) {
        bend(&mut plan, machine, rng);
    }
    let number = rng.index(DESCRIPTORS);
    plant(machine, rng, number, &plan);
    let from = DESCRIPTOR_WORDS * number;
    if rng.chance(90) {
        machine.send_ram[from + STATUS2] |= status2::DONE;
    }
    case.kind = 1;
    case.a = 0x100 + 4 * (from + CONTROL1) as u32;
    case.b = plan.words[CONTROL1];
    machine.send_ram[from + CONTROL1] ^= rng.word() & rng.word();
    machine.send_ram[from + BYTES_TO_GO] = rng.wild_word();
}

/// A write to NBQR, often with 256 waiting.
fn make_block_write(case: &mut Case, rng: &mut Rng) {
    if rng.chance(60) {
        waiting(&mut case.machine, rng);
    }
    case.kind = 1;
    case.a = 0x01C;
    case.b = if rng.chance(60) {
        any_block(&case.machine, rng)
    } else {
        odd_address(&case.machine, rng)
    };
}

/// A read or write of any RAM word, by the pointer or a page.
fn make_ram_access(case: &mut Case, rng: &mut Rng) {
    let ram = rng.pick(&[Ram::Send, Ram::Receive]);
    let word = match (ram, rng.below(4)) {
        (Ram::Send, 0) => rng.range(62, 66),
        (Ram::Send, 1) => 16 * rng.below(4) + 5,
        (Ram::Send, 2) => rng.below(64),
        (Ram::Receive, 0) => rng.range(LISTS_FROM as u32, NQR_FROM as u32 - 1),
        (Ram::Receive, 1) => rng.pick(&[1023, 1024, 1151, 1152, 1919, 1920, 1983, 1984, 2047]),
        (Ram::Receive, 2) => 16 * rng.below(64) + rng.pick(&[0, 1, 2, 2, 3, 6, 7]),
        (ram, _) => rng.below(ram.words() as u32),
    };
    let address = 4 * word;
    let base = if ram == Ram::Send { 0x040 } else { 0x080 };
    let page = if ram == Ram::Send { 0x200 } else { 0x300 };
    let (pointer, register) = match rng.below(3) {
        0 => (address, base + 4),
        1 => (address, base + 8),
        _ => (
            address & !0xFF | (4 * rng.below(64)),
            page + (address & 0xFF),
        ),
    };
    match ram {
        Ram::Send => case.machine.saved.send_pointer = pointer,
        Ram::Receive => case.machine.saved.receive_pointer = pointer,
    }
    if ram == Ram::Receive && word < LISTS_FROM as u32 {
        // what slot word 2 zeroes
        let from = (word - word % 16) as usize;
        for word in &mut case.machine.receive_ram[from + 3..from + 16] {
            *word = rng.word();
        }
    }
    case.kind = rng.pick(&[1, 1, 1, 2]);
    case.a = register;
    case.b = value_for(case, rng, ram, word);
}

/// A value that the word may take, or nearly.
fn value_for(case: &Case, rng: &mut Rng, ram: Ram, word: u32) -> u32 {
    match ram {
        Ram::Send if word < 64 && word as usize % 16 == CONTROL1 => {
            let mut plan = some_plan(&case.machine, rng);
            if rng.chance(30) {
                bend(&mut plan, &case.machine, rng);
            }
            plan.words[CONTROL1]
        }
        Ram::Receive if (1024..1152).contains(&word) => match rng.below(4) {
            0 => odd_address(&case.machine, rng),
            1 => rng.below(4),
            _ => any_block(&case.machine, rng),
        },
        _ => rng.wild_word(),
    }
}

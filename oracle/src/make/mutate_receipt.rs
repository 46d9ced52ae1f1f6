//! Changes of the slot that a received packet addresses.

use super::planting::plant_some;
use super::staging::{make_room, stage_posting, tokens};
use crate::draft::{Draft, ACK_PKT, DST_SLOT, META_FLAG, META_LEN, MSG_SIZE, OFFSET, USE_MSG_SIZE};
use crate::engine::layout::{ListIndex, SlotIndex, LARGEST_24, QUEUE_ENTRIES, SLOT_WORDS};
use crate::raw::Case;
use crate::rng::Rng;

/// The draft of the packet received, and its slot's first word in Receive RAM.
fn addressed(case: &Case) -> Option<(Draft, usize)> {
    let draft = Draft::of(&case.rooms.packet).filter(|_| case.kind == 3)?;
    let slot = SlotIndex::new(draft.get(DST_SLOT))?;
    Some((draft, slot.first_word()))
}

/// What the packet adds to bytes_to_go.
fn change_by(draft: &Draft) -> i64 {
    let added = draft.get(USE_MSG_SIZE) * draft.get(MSG_SIZE);
    i64::from(added) - draft.payload.len() as i64
}

/// The addressed slot's bytes_to_go: at a border before or after the packet, or beyond.
pub fn bytes_to_go(case: &mut Case, rng: &mut Rng) {
    let (draft, slot) = match addressed(case) {
        Some(addressed) => addressed,
        None => return plant_some(&mut case.machine, rng),
    };
    let border = i64::from(LARGEST_24) * rng.pick(&[-1, 1]);
    let after = border - change_by(&draft);
    let count = rng.pick(&[
        border,
        border + border.signum(),
        after,
        after,
        after + border.signum(),
        after - border.signum(),
        i64::from(i32::MIN),
        i64::from(i32::MAX),
    ]);
    case.machine.receive_ram[slot + 3] = count as u32;
}

/// The packet completes its message, with acks or notices or both, and queues at their brims.
pub fn stage_completion(case: &mut Case, rng: &mut Rng) {
    let (draft, slot) = match addressed(case) {
        Some(addressed) => addressed,
        None => return stage_posting(case, rng, ListIndex::FAULTS),
    };
    let words = &mut case.machine.receive_ram[slot..slot + SLOT_WORDS];
    words[3] = (-change_by(&draft)) as u32;
    words[2] |= rng.below(4) << 12;
    if rng.chance(70) {
        any_metadata(words, rng);
    }
    let number = match draft.get(ACK_PKT) {
        1 => words[6] >> 16,
        _ => words[2] >> 16,
    };
    let list = ListIndex::new(number).unwrap_or(ListIndex::FAULTS);
    if rng.chance(40) {
        make_room(&mut case.machine, rng, list);
    } else {
        stage_posting(case, rng, list);
    }
    let saved = &mut case.machine.saved;
    if rng.chance(60) {
        saved.aqr.length = rng.pick(&[0, 0, 1, 255, 256, 256]);
        saved.int_hi = rng.below(2);
    }
    // ripe for several interrupts at once
    if rng.chance(25) {
        (saved.int_hi, saved.int_lo) = (0, 0);
        (saved.aqr.length, saved.nqr.length) = (0, 0);
        saved.nbqr.length = saved.nbqr.length.min(rng.range(1, 2));
    }
}

/// AQR full, but room for a notice: more than that neither an ack packet needs nor a fault.
pub fn full_aqr(case: &mut Case, rng: &mut Rng) {
    let mut list = ListIndex::FAULTS;
    if let Some((draft, slot)) = addressed(case).filter(|_| rng.chance(60)) {
        case.rooms.packet = ack_of(draft).encode();
        let number = case.machine.receive_ram[slot + 6] >> 16;
        list = ListIndex::new(number).unwrap_or(list);
    }
    case.machine.saved.aqr.length = QUEUE_ENTRIES;
    make_room(&mut case.machine, rng, list);
}

/// The packet as an ack packet: "ack is 20 bytes".
fn ack_of(mut draft: Draft) -> Draft {
    draft.set(ACK_PKT, 1);
    draft.set(META_FLAG, 0);
    draft.set(META_LEN, 0);
    draft.payload.clear();
    draft
}

/// Words 7 to 11: any metadata, with the flag or without it.
fn any_metadata(slot: &mut [u32], rng: &mut Rng) {
    slot[7] = rng.below(16) << 24;
    for word in &mut slot[8..12] {
        *word = rng.word();
    }
}

/// The addressed slot's other words.
pub fn slot_words(case: &mut Case, rng: &mut Rng) {
    let (draft, slot) = match addressed(case) {
        Some(addressed) => addressed,
        None => return tokens(&mut case.machine, rng),
    };
    let payload = draft.payload.len() as u32;
    let offset = draft.get(OFFSET);
    let length = case.machine.data.len() as u32;
    let words = &mut case.machine.receive_ram[slot..slot + SLOT_WORDS];
    match rng.below(18) {
        // "offset above buffer size", "offset plus payload above it"
        0 => words[1] = rng.pick(&[offset, offset.wrapping_sub(1), offset + payload]),
        1 => words[1] = (offset + payload).wrapping_sub(rng.range(1, 4)),
        // "base plus size inside data memory"
        2 => words[0] = length.wrapping_sub(words[1]).wrapping_add(rng.below(2)),
        3 => words[0] = rng.wild_word(),
        4..=5 => words[2] ^= 1 << rng.below(16),
        6 => words[2] = words[2] & 0xFFFF | rng.pick(&[63, 64, 0xFFFF]) << 16,
        7 => words[6] = rng.pick(&[63, 64, 0xFFFF]) << 16 | rng.word() & 0xFFFF,
        // "words 4 and 5 below 2^24"
        8..=13 => {
            let beyond = 1 << rng.range(24, 31);
            words[rng.pick(&[4, 5])] = rng.pick(&[LARGEST_24, beyond, beyond, u32::MAX]);
        }
        // "word 7 only flag and length"
        14..=15 => words[7] = 1 << rng.below(32),
        _ => any_metadata(words, rng),
    }
}

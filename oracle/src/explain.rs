//! A record or a raw case in plain words: the call, the answer, and what it changed.

use std::io::{self, Read};

use crate::call::{Call, Rooms};
use crate::draft::*;
use crate::engine::layout::DESCRIPTORS;
use crate::engine::packet::{check, Packet};
use crate::engine::{Answer, Descriptor, Machine, Reply, Saved};
use crate::names;
use crate::raw::Case;
use crate::station::{call_of, Records};

/// Record `number` of a station stream, counted from 1 as its line is.
pub fn station(input: impl Read, number: u64) -> io::Result<String> {
    let mut machine = Machine::station(None);
    let mut rooms = Rooms::default();
    let mut at = 0;
    for record in Records::new(input) {
        let call = call_of(&record?);
        at += 1;
        let before = (at == number).then(|| (machine.clone(), rooms.clone()));
        let answer = call.run(&mut machine, &mut rooms);
        if let Some((machine_before, rooms_before)) = before {
            let mut text = format!("record {number}: ");
            text += &call_in_words(&call, &machine_before);
            text += &answer_in_words(&answer);
            text += &changes(&machine_before, &machine);
            text += &room_changes(&rooms_before, &rooms);
            return Ok(text);
        }
    }
    Ok(format!("there are only {at} records\n"))
}

/// Case `number` of a raw input, counted from 1.
pub fn raw(mut input: impl Read, number: u64) -> io::Result<String> {
    let mut at = 0;
    while let Some(mut case) = Case::decode(&mut input)? {
        at += 1;
        if at == number {
            return Ok(format!("case {number}: ") + &case_in_words(&mut case));
        }
    }
    Ok(format!("there are only {at} cases\n"))
}

pub fn case_in_words(case: &mut Case) -> String {
    let before = case.clone();
    let answer = case.run(None);
    let machine = &before.machine;
    let mut text = call_in_words(&before.call(), machine);
    text += &format!(
        "  sizes: send {}, receive {}, data {}, notices {}, packet {}, room {}\n",
        machine.send_ram.len(),
        machine.receive_ram.len(),
        machine.data.len(),
        machine.notices.len(),
        before.rooms.packet.len(),
        before.rooms.notice.len()
    );
    for (name, value) in Saved::NAMES.iter().zip(machine.saved.to_words()) {
        text += &format!("  {name} = {value:#x}\n");
    }
    text += &answer_in_words(&answer);
    let sizes_right = answer.reply != Reply::Sizes;
    let reason = sizes_right.then(|| machine.first_unsound()).flatten();
    if let Some(reason) = reason {
        text += &format!("  unsound: {reason}\n");
    }
    text += &changes(machine, &case.machine);
    text += &room_changes(&before.rooms, &case.rooms);
    text
}

fn call_in_words(call: &Call, machine: &Machine) -> String {
    let saved = &machine.saved;
    let named = |register| names::register(register, saved.send_pointer, saved.receive_pointer);
    match call {
        Call::Write { register, value } => format!("write {} {value:#010x}\n", named(*register)),
        Call::Read { register } => format!("read {}\n", named(*register)),
        Call::Receive { packet } => packet_in_words(packet),
        Call::Send { first } => {
            let ready = if *first == 1 { "ready" } else { "not ready" };
            format!("send {first:#x}, fabric {ready}\n") + &active_in_words(machine)
        }
        Call::Take { list } => format!("take list {list}\n"),
        Call::Unknown { kind } => format!("unknown kind {kind}\n"),
    }
}

fn packet_in_words(bytes: &[u8]) -> String {
    let mut text = format!("receive {} bytes\n", bytes.len());
    let (packet, draft) = match (Packet::new(bytes), Draft::of(bytes)) {
        (Some(packet), Some(draft)) => (packet, draft),
        _ => return text + "  not the length of a packet\n",
    };
    let fields = [
        ("dst_node", DST_NODE),
        ("dst_slot", DST_SLOT),
        ("src_node", SRC_NODE),
        ("use_msg_size", USE_MSG_SIZE),
        ("use_msg_offset", USE_MSG_OFFSET),
        ("ack_pkt", ACK_PKT),
        ("reserved", RESERVED),
        ("incarnation", INCARNATION),
        ("offset", OFFSET),
        ("meta flag", META_FLAG),
        ("meta_len", META_LEN),
        ("msg_size", MSG_SIZE),
    ];
    for (name, field) in fields {
        text += &format!("  {name} {}\n", draft.get(field));
    }
    let header = check(&[packet.header_bytes(), packet.metadata_bytes()]);
    let right = header == packet.header_check();
    text += &format!(
        "  payload {} bytes, header check {}",
        packet.payload().len(),
        word(right)
    );
    if !packet.payload().is_empty() {
        let (body, padding) = packet.body_check_and_padding();
        let right = body == check(&[packet.payload()]);
        text += &format!(", body check {}, padding {padding:#x}", word(right));
    }
    text + "\n"
}

fn word(right: bool) -> &'static str {
    if right {
        "right"
    } else {
        "wrong"
    }
}

fn active_in_words(machine: &Machine) -> String {
    let mut text = String::new();
    for number in (0..DESCRIPTORS).filter(|number| 16 * (number + 1) <= machine.send_ram.len()) {
        let descriptor = Descriptor::of(&machine.send_ram, number);
        if descriptor.is_active() {
            text += &format!(
                "  descriptor {number} is active: {:08x?}\n",
                descriptor.words
            );
        }
    }
    text + &format!("  last sender {}\n", machine.saved.last_sender)
}

pub fn answer_in_words(answer: &Answer) -> String {
    format!(
        "  answers {}, value {:#010x}, interrupts {}\n",
        answer.reply.word(),
        answer.value,
        answer.interrupts
    )
}

/// Every number of the machine that differs, by name.
pub fn changes(before: &Machine, after: &Machine) -> String {
    let saved = |number: usize| Saved::NAMES[number].to_string();
    let data = |byte: usize| format!("data byte {byte:#x}");
    let old_data: Vec<u32> = before.data.iter().map(|&byte| byte.into()).collect();
    let new_data: Vec<u32> = after.data.iter().map(|&byte| byte.into()).collect();
    differences(&before.saved.to_words(), &after.saved.to_words(), saved)
        + &differences(&before.send_ram, &after.send_ram, names::send_word)
        + &differences(&before.receive_ram, &after.receive_ram, names::receive_word)
        + &differences(&before.notices, &after.notices, names::notice_word)
        + &differences(&old_data, &new_data, data)
}

pub fn room_changes(before: &Rooms, after: &Rooms) -> String {
    let bytes = |room: &Rooms| -> Vec<u32> { room.packet.iter().map(|&b| b.into()).collect() };
    let packet = |byte: usize| format!("packet room byte {byte}");
    let notice = |word: usize| format!("notice room word {word}");
    differences(&bytes(before), &bytes(after), packet)
        + &differences(&before.notice, &after.notice, notice)
}

fn differences(before: &[u32], after: &[u32], name: impl Fn(usize) -> String) -> String {
    let pairs = before.iter().zip(after).enumerate();
    pairs
        .filter(|(_, (old, new))| old != new)
        .map(|(place, (old, new))| format!("  {}: {old:#x} -> {new:#x}\n", name(place)))
        .collect()
}

//! What done means for a call, and the interrupts.

use super::calls::value_in_words;
use crate::call::Call;
use crate::fields::{in_words, part, CONTROL1, MESSAGE0, PCSR0};
use crate::known::{Event, Known};
use crate::packet::Packet;
use crate::places::{place, Place};
use crate::registers::{decode, Register};

pub fn done(call: &Call, value: u32, known: &Known) -> Vec<String> {
    match call {
        Call::Write { register, value } => vec![written(*register, *value, known)],
        Call::Read { register } => vec![read(*register, value, known)],
        Call::Receive { packet, .. } => match packet.and_then(Packet::new) {
            Some(packet) => received(&packet, known),
            None => Vec::new(),
        },
        Call::Send { .. } => sent(value, known),
        Call::Take { list } => vec![taken(*list, value, known)],
        Call::Unknown { .. } | Call::Torn { .. } => Vec::new(),
    }
}

fn written(register: u32, value: u32, known: &Known) -> String {
    match decode(register) {
        Some(Register::Pcsr0) => pcsr0_written(value),
        Some(Register::Pcsr1) => match value >> 29 & 3 {
            0 => "int_hi and int_lo are off".to_string(),
            1 => "int_hi is off, int_lo stays".to_string(),
            2 => "int_lo is off, int_hi stays".to_string(),
            _ => "nothing changes: a write clears int_hi or int_lo where its bit is 0".to_string(),
        },
        Some(Register::SlotCount) if value == 0 => "no slot takes packets".to_string(),
        Some(Register::SlotCount) => format!("slots 0 to {} can take packets", value - 1),
        Some(Register::Nbqr) => match known.nbqr {
            Some(before) => format!(
                "block 0x{value:x} waits in NBQR, which holds {}",
                before + 1
            ),
            None => format!("block 0x{value:x} waits in NBQR"),
        },
        Some(Register::Pointer(ram)) => format!("it points at {}", place(ram, value).name()),
        _ => match known.place(register) {
            Some(place) => word_written(place, value),
            None => "stored".to_string(),
        },
    }
}

fn pcsr0_written(value: u32) -> String {
    let (node, incarnation) = (
        part(value, PCSR0, "node"),
        part(value, PCSR0, "incarnation"),
    );
    let on = match part(value, PCSR0, "enable") {
        0 => "off",
        _ => "on",
    };
    let own =
        format!("the board is node {node}, incarnation {incarnation}; receive and send are {on}");
    match part(value, PCSR0, "reset") {
        0 => own,
        _ => format!(
            "reset: Receive RAM, notices, descriptors, counts and pointers begin anew; {own}"
        ),
    }
}

fn word_written(place: Place, value: u32) -> String {
    match place {
        Place::Descriptor(number, 5) if part(value, CONTROL1, "go") == 1 => {
            let size = part(value, CONTROL1, "msg_size");
            format!("descriptor {number} is active, with {size} bytes to go")
        }
        Place::Descriptor(number, 5) => format!("stored; descriptor {number} is not active"),
        Place::Slot(slot, 2) => {
            format!("stored; words 3, 4, 5 and 7 to 11 of slot {slot} are 0")
        }
        Place::Head(list) => {
            format!("block 0x{value:x} is the head and the reader's place of list {list}")
        }
        _ => "stored".to_string(),
    }
}

fn read(register: u32, value: u32, known: &Known) -> String {
    match decode(register) {
        Some(Register::Nqr) if value == 0 => "NQR is empty".to_string(),
        Some(Register::Nqr) => {
            format!("token {value}, removed from NQR: its list has a new notice")
        }
        Some(Register::Aqr) if value == 0 => "AQR is empty".to_string(),
        Some(Register::Aqr) => format!(
            "slot {}, removed from AQR: its message is complete and asks for an ack",
            value & 0x7FFF_FFFF
        ),
        Some(Register::Nbqr) => "NBQR always reads 0".to_string(),
        Some(Register::Nlhr) => "NLHR always reads 0x1000".to_string(),
        Some(Register::Pointer(ram)) if value < ram.bytes() => {
            format!("it points at {}", place(ram, value).name())
        }
        Some(Register::Taken) => format!("packets taken since the reset: {value}"),
        Some(Register::Faulted) => format!("packets faulted since the reset: {value}"),
        _ => value_in_words(register, value, known).unwrap_or_else(|| value.to_string()),
    }
}

fn received(packet: &Packet, known: &Known) -> Vec<String> {
    let slot = packet.slot();
    if packet.is_ack() {
        return vec![match known.ack_list(packet) {
            Some(list) => format!("the ack's notice is on list {list}, slot {slot} is unchanged"),
            None => format!("the ack's notice is on slot {slot}'s list for acks"),
        }];
    }
    let landing = match known.landing(packet) {
        Some(landing) => landing,
        None => return vec!["taken; the slot is not known well enough to say more".to_string()],
    };
    let payload = packet.payload().len();
    let first = u64::from(landing.base) + u64::from(packet.control0("offset"));
    let mut said = match payload {
        0 => format!("taken for slot {slot}"),
        _ => format!("taken for slot {slot}: {payload} bytes to data memory from byte {first}"),
    };
    said += &format!("; bytes_to_go is {}", landing.bytes_to_go);
    let mut said = vec![said];
    if landing.complete {
        said.push("the message is complete".to_string());
    }
    if landing.do_acks {
        said.push(format!("do_acks: slot {slot} is on AQR"));
    }
    if let Some(list) = landing.notifies {
        said.push(format!("notify: the message's notice is on list {list}"));
    }
    said
}

fn sent(length: u32, known: &Known) -> Vec<String> {
    let sent = match known.next_sent() {
        Some(sent) => sent,
        None => return vec![format!("a packet of {length} bytes was sent")],
    };
    let number = sent.descriptor;
    let mut said = vec![format!(
        "descriptor {number} sent a packet of {length} bytes, {} of them payload; {} bytes to go",
        sent.payload, sent.left
    )];
    if sent.ends {
        said.push(format!("descriptor {number} is done"));
    }
    if let Some(list) = sent.posts {
        said.push(format!("notify: a zero notice is on list {list}"));
    }
    said
}

/// A notice's word 0. What it means depends on what the notice tells of.
fn taken(list: u32, value: u32, known: &Known) -> String {
    let message = in_words(value, MESSAGE0);
    let fault = format!("slot {}, status 0x{:04x}", value >> 16, value & 0xFFFF);
    match known.oldest(list).map(|notice| notice.event) {
        Some(Event::Message) => format!("a message: {message}"),
        Some(Event::Ack) => format!("an ack: {message}"),
        Some(Event::Fault) => format!("a fault: {fault}"),
        Some(Event::SendEnd) => "a descriptor's end: a zero notice".to_string(),
        None if list == 0 => format!("as a message or ack: {message}; as a fault: {fault}"),
        None if value == 0 => format!("a descriptor's end, or a message or ack: {message}"),
        None => format!("a message or ack: {message}"),
    }
}

/// "Interrupts, summed".
pub fn interrupts(sum: u32) -> Vec<String> {
    let names = [
        (1, "interrupt 1: AQR is no longer empty, int_hi is on"),
        (2, "interrupt 2: NQR is no longer empty, int_lo is on"),
        (4, "interrupt 4: NBQR became empty by posting"),
    ];
    let told = names.into_iter().filter(|(bit, _)| sum & bit != 0);
    told.map(|(_, name)| name.to_string()).collect()
}

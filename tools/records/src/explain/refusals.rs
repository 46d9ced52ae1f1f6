//! 01, "Replies": what a refusal means for the call it answers.

use super::{bad_values, faults};
use crate::call::Call;
use crate::known::{Known, LISTS, QUEUE_ENTRIES};
use crate::packet::Packet;
use crate::places::Place;
use crate::registers::name;
use crate::reply::Reply;

/// The replies that document 01 has for a call.
pub fn is_possible(call: &Call, reply: Reply) -> bool {
    use Reply::*;
    let own: &[Reply] = match call {
        Call::Write { .. } => &[Done, NoRegister, ReadOnly, Active, BadValue, Full],
        Call::Read { .. } => &[Done, NoRegister],
        Call::Receive { .. } => &[Done, Off, NoPacket, Stalled, Fault],
        Call::Send { .. } => &[Done, Off, Short, Quiet, Stalled, Fabric],
        Call::Take { .. } => &[Done, BadValue, Short, Empty, Full],
        Call::Unknown { .. } | Call::Torn { .. } => &[NoRegister],
    };
    own.contains(&reply) || matches!(reply, Sizes | Unsound)
}

pub fn why(call: &Call, reply: Reply, known: &Known) -> Vec<String> {
    match (reply, call) {
        (Reply::Sizes, _) => one("a memory has another size; a station's have the largest"),
        (Reply::Unsound, _) => one("the saved state is not sound; no calls lead there"),
        (Reply::NoRegister, Call::Write { register, .. } | Call::Read { register }) => {
            vec![no_register(*register)]
        }
        (Reply::NoRegister, _) => one("the calls are the kinds 1 to 5"),
        (Reply::ReadOnly, Call::Write { register, .. }) => vec![read_only(*register, known)],
        (Reply::Active, Call::Write { register, .. }) => vec![active(*register, known)],
        (Reply::BadValue, Call::Write { register, value }) => {
            vec![bad_values::why(*register, *value, known)]
        }
        (Reply::BadValue, Call::Take { list }) => {
            vec![format!("list {list} is not below {LISTS}")]
        }
        (Reply::Off, _) => one("enable in PCSR0 is 0: neither receive nor send"),
        (Reply::Short, _) => one("the room lent for it is too short; a station lends enough"),
        (Reply::NoPacket, Call::Receive { packet, length }) => vec![no_packet(*packet, *length)],
        (Reply::Empty, Call::Take { list }) => {
            vec![format!(
                "list {list} has no notice to take (no block, or none behind it)"
            )]
        }
        (Reply::Full, _) => vec![format!("{QUEUE_ENTRIES} blocks wait in NBQR, the most")],
        (Reply::Quiet, _) => one("no descriptor is active (go 1, done 0): nothing to send"),
        (Reply::Stalled, Call::Receive { packet, .. }) => receive_stalled(*packet, known),
        (Reply::Stalled, _) => send_stalled(known),
        (Reply::Fabric, _) => vec![fabric(known)],
        _ => Vec::new(),
    }
}

fn one(said: &str) -> Vec<String> {
    vec![said.to_string()]
}

fn no_register(register: u32) -> String {
    match register % 4 {
        0 => format!("no register stands at 0x{register:03X}"),
        _ => format!("0x{register:03X} is no multiple of 4"),
    }
}

fn read_only(register: u32, known: &Known) -> String {
    match known.place(register) {
        Some(Place::Head(list)) => format!("the head of list {list} is set already, not 0"),
        Some(place) => format!("{} cannot be written", place.name()),
        None if known.reached(register).is_some() => {
            "the word that was reached cannot be written".to_string()
        }
        None => format!("{} cannot be written", name(register).unwrap_or_default()),
    }
}

fn active(register: u32, known: &Known) -> String {
    let number = match known.place(register) {
        Some(Place::Descriptor(number, _)) => format!("descriptor {number}"),
        _ => "the descriptor".to_string(),
    };
    format!("{number} is active (go 1, done 0): it takes only control1 with go 0")
}

/// "Length: a multiple of 4; without the flag 20, or 28 to 152; with it 36, or 44 to 168."
fn no_packet(packet: Option<&[u8]>, length: u32) -> String {
    let flag = packet
        .and_then(|packet| packet.get(12))
        .map(|byte| byte & 8 != 0);
    let lengths = match flag {
        _ if length > 168 => "is above 168, the longest packet",
        _ if length % 4 != 0 => "is no multiple of 4",
        Some(true) => "is none of a packet with the meta flag: 36, or 44 to 168",
        Some(false) if length >= 20 => {
            "is none of a packet without the meta flag: 20, or 28 to 152"
        }
        _ => "is below 20, the shortest packet",
    };
    format!("the length {length} {lengths}")
}

/// Which notice or entry the packet needs, and what there is no room for.
fn receive_stalled(packet: Option<&[u8]>, known: &Known) -> Vec<String> {
    let unknown = one("a notice or AQR entry that the packet needs has no room");
    let packet = match packet.and_then(Packet::new) {
        Some(packet) => packet,
        None => return unknown,
    };
    match known.first_failure(&packet) {
        None => unknown,
        Some(0) if packet.is_ack() => match known.ack_list(&packet) {
            Some(list) => lacking("the ack's notice", list, known),
            None => unknown,
        },
        Some(0) => complete_stalled(&packet, known).unwrap_or(unknown),
        Some(status) => {
            let reason = faults::reason(&packet, status, known);
            let mut said = vec![format!(
                "it would be a fault, status 0x{status:04x}: {reason}"
            )];
            said.extend(lacking("the fault's notice", 0, known));
            said
        }
    }
}

fn complete_stalled(packet: &Packet, known: &Known) -> Option<Vec<String>> {
    let landing = known.landing(packet)?;
    let mut said = one("the message would be complete");
    if landing.do_acks && known.aqr? == QUEUE_ENTRIES {
        said.push("AQR is full, and the slot asks for an ack".to_string());
    }
    if let Some(list) = landing.notifies {
        said.extend(lacking("its notice", list, known));
    }
    Some(said)
}

/// That something cannot be posted to a list, and why as far as it is known.
fn lacking(what: &str, list: u32, known: &Known) -> Vec<String> {
    if list as usize >= LISTS {
        return vec![format!("{what} goes to list {list}")];
    }
    let missing = known.missing_to_post(list as usize);
    match missing.reasons[..] {
        [] if missing.all_known => Vec::new(),
        [] => vec![format!("{what} on list {list} may have no room")],
        _ => vec![format!(
            "{what} on list {list} has no room: {}",
            missing.reasons.join(", and ")
        )],
    }
}

fn send_stalled(known: &Known) -> Vec<String> {
    let mut said =
        one("no active descriptor is ready: each would end with a notice that has no room");
    for (number, list) in known.ending().into_iter().flatten() {
        said.extend(lacking(
            &format!("the notice of descriptor {number}"),
            list,
            known,
        ));
    }
    said
}

fn fabric(known: &Known) -> String {
    match known.next_sent() {
        Some(sent) => format!(
            "the fabric is not ready: descriptor {} is marked stalled and will send later",
            sent.descriptor
        ),
        None => "the fabric is not ready: the descriptor chosen is marked stalled".to_string(),
    }
}

//! 01, "Receipt, first failure decides": what a fault's status means for this packet.

use crate::call::Call;
use crate::known::Known;
use crate::packet::Packet;

pub fn why(call: &Call, status: u32, known: &Known) -> Vec<String> {
    let packet = match call {
        Call::Receive { packet, .. } => packet.and_then(Packet::new),
        _ => return Vec::new(),
    };
    match packet {
        Some(packet) => vec![
            format!("status 0x{status:04x}: {}", reason(&packet, status, known)),
            "the packet was dropped; a fault notice is on list 0".to_string(),
        ],
        None => vec![format!(
            "status 0x{status:04x}, for a packet without a packet's length"
        )],
    }
}

/// What the step of that status found.
pub fn reason(packet: &Packet, status: u32, known: &Known) -> String {
    match status {
        0x0400 => "the header check is wrong".to_string(),
        0x0080 => match packet.wrong_fields() {
            wrong if wrong.is_empty() => "a field that has to be 0, or meta_len".to_string(),
            wrong => wrong.join(", and "),
        },
        0x2000 => format!(
            "dst_node is {}, and the board is {}",
            packet.dst_node(),
            own("node", known.pcsr0_field("node"))
        ),
        0x4000 => format!(
            "slot {} is not below the {}",
            packet.slot(),
            own("slot count", known.slot_count)
        ),
        0x8000 => not_valid(packet.slot(), known),
        0x0100 => format!(
            "the packet's incarnation is {}, and the board has {}",
            packet.control0("incarnation"),
            own("incarnation", known.pcsr0_field("incarnation"))
        ),
        0x1000 | 0x0800 | 0x0200 => body(packet, status, known),
        _ => "document 01 has no such status".to_string(),
    }
}

fn own(name: &str, number: Option<u32>) -> String {
    match number {
        Some(number) => format!("{name} {number}"),
        None => format!("another {name}"),
    }
}

fn not_valid(slot: u32, known: &Known) -> String {
    let reasons = known.why_not_valid(slot as usize).unwrap_or_default();
    match reasons[..] {
        [] => format!("slot {slot} is not valid"),
        _ => format!("slot {slot} is not valid: {}", reasons.join(", and ")),
    }
}

fn body(packet: &Packet, status: u32, known: &Known) -> String {
    let size = known
        .slots
        .get(packet.slot() as usize)
        .and_then(|words| words[1]);
    let buffer = match size {
        Some(size) => format!("the buffer size {size}"),
        None => "the buffer size".to_string(),
    };
    let (offset, payload) = (packet.control0("offset"), packet.payload().len());
    match (status, size) {
        (0x1000, _) => format!("offset {offset} is above {buffer}"),
        (0x0200, _) => match packet.body_end() {
            Some((_, 0)) | None => "the body check is wrong".to_string(),
            Some(_) => "the body check is wrong, or the padding behind it is not 0".to_string(),
        },
        (_, Some(size)) if offset as usize + payload <= size as usize => {
            "the new bytes_to_go would be beyond 16777215 either way".to_string()
        }
        (_, Some(_)) => {
            format!("offset {offset} plus {payload} bytes of payload is above {buffer}")
        }
        (_, None) => format!(
            "offset {offset} plus {payload} bytes of payload is above {buffer}, \
             or the new bytes_to_go is beyond 16777215 either way"
        ),
    }
}

//! 01, "Packet": a packet's fields by name.

use crate::fields::{in_words, CONTROL0, PACKET0, PACKET1, PACKET3};
use crate::packet::{check, Packet};

pub fn details(bytes: &[u8]) -> Vec<String> {
    let packet = match Packet::new(bytes) {
        Some(packet) => packet,
        None => return Vec::new(),
    };
    let mut said = vec![
        format!(
            "{}, {}",
            in_words(packet.word(0), PACKET0),
            in_words(packet.word(1), PACKET1)
        ),
        in_words(packet.word(2), CONTROL0),
        in_words(packet.word(3), PACKET3),
    ];
    if let Some(metadata) = packet.metadata() {
        said.push(format!(
            "metadata {}",
            metadata.map(|word| format!("0x{word:08x}")).join(" ")
        ));
    }
    said.push(format!(
        "payload {} bytes, header check {}{}",
        packet.payload().len(),
        right_or_wrong(packet.header_check_is_right()),
        body(&packet)
    ));
    said
}

fn body(packet: &Packet) -> String {
    let (given, padding) = match packet.body_end() {
        Some(end) => end,
        None => return String::new(),
    };
    let right = right_or_wrong(given == check(&[packet.payload()]));
    let padding = match padding {
        0 => String::new(),
        _ => format!(", padding 0x{padding:04x} in place of 0"),
    };
    format!(", body check {right}{padding}")
}

fn right_or_wrong(right: bool) -> &'static str {
    if right {
        "right"
    } else {
        "wrong"
    }
}

//! The fields of words. "The first named field takes the top bits."

/// Names and widths in bits, from the top; together 32.
pub type Layout = &'static [(&'static str, u32)];

pub const PCSR0: Layout = &[
    ("reset", 1),
    ("enable", 1),
    ("reserved", 10),
    ("incarnation", 4),
    ("node", 16),
];
pub const PCSR1: Layout = &[
    ("ready", 1),
    ("int_hi", 1),
    ("int_lo", 1),
    ("idle", 1),
    ("nbqr_empty", 1),
    ("nbqr_full", 1),
    ("zero", 6),
    ("the bits that hold 4:", 4),
    ("zero", 16),
];
/// Descriptor word 1, and packet word 0, "address0".
pub const PACKET0: Layout = &[("fab", 4), ("dst_node", 12), ("low fab", 16)];
pub const DESCRIPTOR2: Layout = &[("dst_slot", 16), ("note_index", 16)];
/// Descriptor word 3 and packet word 2.
pub const CONTROL0: Layout = &[
    ("use_msg_size", 1),
    ("use_msg_offset", 1),
    ("ack_pkt", 1),
    ("reserved", 1),
    ("incarnation", 4),
    ("offset", 24),
];
pub const CONTROL1: Layout = &[
    ("direct_io", 1),
    ("control_pkt", 1),
    ("notify", 1),
    ("go", 1),
    ("meta_data", 1),
    ("meta_cnt", 3),
    ("msg_size", 24),
];
pub const STATUS2: Layout = &[("busy", 1), ("stalled", 1), ("done", 1), ("zero", 29)];
pub const PACKET1: Layout = &[("dst_slot", 16), ("src_node", 12), ("zero", 4)];
pub const PACKET3: Layout = &[
    ("zero", 4),
    ("meta flag", 1),
    ("meta_len", 3),
    ("msg_size", 24),
];
pub const PACKET4: Layout = &[("header check", 16), ("zero", 16)];
pub const SLOT2: Layout = &[
    ("note_index", 16),
    ("valid", 1),
    ("indirect", 1),
    ("do_acks", 1),
    ("notify", 1),
    ("reserve", 12),
];
pub const SLOT6: Layout = &[("ack_note_index", 16), ("unused", 16)];
/// "meta flag and length as in packet word 3".
pub const SLOT7: Layout = &[("zero", 4), ("meta flag", 1), ("meta_len", 3), ("zero", 24)];
pub const TOKEN: Layout = &[("token", 31), ("enqueue", 1)];
pub const MESSAGE0: Layout = &[("slot", 16), ("src_node", 12), ("zero", 4)];

/// Each field with its value, from the top.
fn parts(word: u32, layout: Layout) -> impl Iterator<Item = (&'static str, u32)> {
    let mut below = 32;
    layout.iter().map(move |&(name, width)| {
        below -= width;
        (name, word >> below & ((1_u64 << width) - 1) as u32)
    })
}

/// The first field of this name.
pub fn part(word: u32, layout: Layout, name: &str) -> u32 {
    let found = parts(word, layout).find(|(own, _)| *own == name);
    found.expect("the layout has the field").1
}

/// All fields; those that have to be 0, or seldom are anything else, only where they are not.
pub fn in_words(word: u32, layout: Layout) -> String {
    let quiet = ["zero", "reserved", "reserve", "unused", "fab", "low fab"];
    let shown = parts(word, layout).filter(|(name, value)| *value != 0 || !quiet.contains(name));
    let words: Vec<String> = shown
        .map(|(name, value)| format!("{name} {value}"))
        .collect();
    words.join(", ")
}

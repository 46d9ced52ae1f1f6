//! 01, "Replies": the sixteen words, and the station's lines.

use crate::numbers::Result;
use crate::text::plain;

#[derive(Clone, Copy, Debug, PartialEq, Eq)]
pub enum Reply {
    Done,
    Sizes,
    Unsound,
    NoRegister,
    ReadOnly,
    Active,
    BadValue,
    Off,
    Short,
    NoPacket,
    Empty,
    Full,
    Quiet,
    Stalled,
    Fabric,
    Fault,
}

/// The table's rows in their order.
const WORDS: [(&str, Reply); 16] = [
    ("done", Reply::Done),
    ("sizes", Reply::Sizes),
    ("unsound", Reply::Unsound),
    ("no-register", Reply::NoRegister),
    ("read-only", Reply::ReadOnly),
    ("active", Reply::Active),
    ("bad-value", Reply::BadValue),
    ("off", Reply::Off),
    ("short", Reply::Short),
    ("no-packet", Reply::NoPacket),
    ("empty", Reply::Empty),
    ("full", Reply::Full),
    ("quiet", Reply::Quiet),
    ("stalled", Reply::Stalled),
    ("fabric", Reply::Fabric),
    ("fault", Reply::Fault),
];

impl Reply {
    pub fn word(self) -> &'static str {
        let row = WORDS.iter().find(|(_, own)| *own == self);
        row.expect("every reply has a row").0
    }
}

/// A line of the station program: "kind, word, value as 8 lowercase hex digits, interrupts".
#[derive(Clone, Debug, PartialEq, Eq)]
pub struct Line {
    pub text: String,
    pub kind: u8,
    pub reply: Reply,
    pub value: u32,
    pub interrupts: u32,
}

/// All lines; `name` is for errors.
pub fn lines(text: &[u8], name: &str) -> Result<Vec<Line>> {
    let expected = "the station's lines (is this a record file? It stands before them)";
    let numbered = plain(text, name, expected)?.lines().enumerate();
    let parsed = numbered.map(|(place, line)| {
        Line::of(line).map_err(|error| format!("{name}:{}: {error}", place + 1))
    });
    parsed.collect()
}

/// "Kind and interrupts print in decimal": with no sign, and no zero in front.
fn decimal(text: &str) -> Option<u32> {
    let number: u32 = text.parse().ok()?;
    (number.to_string() == text).then_some(number)
}

impl Line {
    fn of(text: &str) -> Result<Line> {
        let expected = "expected kind, word, value as 8 lowercase hex digits, and interrupts, \
                        like `2 done 40030007 0`";
        let wrong = |what: &str| format!("{what} in {text:?}; {expected}");
        let (kind, word, value, interrupts) = match text.split(' ').collect::<Vec<_>>()[..] {
            [kind, word, value, interrupts] => (kind, word, value, interrupts),
            _ => return Err(wrong("not four words")),
        };
        let reply = WORDS.iter().find(|(own, _)| *own == word);
        let lowercase = |digit: u8| matches!(digit, b'0'..=b'9' | b'a'..=b'f');
        let is_value = value.len() == 8 && value.bytes().all(lowercase);
        let interrupts = decimal(interrupts).filter(|&sum| sum <= 7);
        let kind = decimal(kind).and_then(|kind| kind.try_into().ok());
        Ok(Line {
            text: text.to_string(),
            kind: kind.ok_or_else(|| wrong("no kind from 0 to 255"))?,
            reply: reply
                .ok_or_else(|| wrong("no word of document 01's table"))?
                .1,
            value: u32::from_str_radix(value, 16)
                .ok()
                .filter(|_| is_value)
                .ok_or_else(|| wrong("no value"))?,
            interrupts: interrupts.ok_or_else(|| wrong("no sum of interrupts from 0 to 7"))?,
        })
    }
}

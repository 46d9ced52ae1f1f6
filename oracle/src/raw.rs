//! Raw cases: single calls on arbitrary states. tests/vectors/README.md has the format.

use std::io::{self, Read, Write};

use crate::call::{Call, Rooms};
use crate::engine::{Answer, Machine, Saved};
use crate::wrong::Wrong;

/// "A program for such cases has rooms for: send 2,048 words, receive 4,096, data 65,536 bytes,
/// notices 4,096 words, packet 1,024 bytes, notice room 64 words."
pub const LIMITS: [u32; 6] = [2_048, 4_096, 65_536, 4_096, 1_024, 64];

/// kind, a, b; six sizes; the saved state.
const HEAD_WORDS: usize = 3 + LIMITS.len() + Saved::WORDS;

/// A state, and the call to make on it.
#[derive(Clone, Debug)]
pub struct Case {
    pub kind: u32,
    pub a: u32,
    pub b: u32,
    pub machine: Machine,
    /// "The packet buffer is the incoming packet for kind 3, and the room to write the outgoing
    /// packet into for kind 4."
    pub rooms: Rooms,
}

impl Case {
    /// The case with this call; a received packet is put into the packet buffer.
    pub fn new(call: &Call, machine: Machine, mut rooms: Rooms) -> Case {
        if let Call::Receive { packet } = call {
            rooms.packet.clone_from(packet);
        }
        let (a, b) = call.numbers();
        Case {
            kind: call.kind(),
            a,
            b,
            machine,
            rooms,
        }
    }

    pub fn call(&self) -> Call {
        Call::of(self.kind, self.a, self.b, &self.rooms.packet)
    }

    /// Makes the call; afterwards the case holds what the call left.
    pub fn run(&mut self, wrong: Option<Wrong>) -> Answer {
        self.machine.wrong = wrong;
        let answer = self.call().run(&mut self.machine, &mut self.rooms);
        self.machine.wrong = None;
        answer
    }

    fn sizes(&self) -> [u32; 6] {
        [
            self.machine.send_ram.len(),
            self.machine.receive_ram.len(),
            self.machine.data.len(),
            self.machine.notices.len(),
            self.rooms.packet.len(),
            self.rooms.notice.len(),
        ]
        .map(|size| size as u32)
    }

    /// The case as it is written in a file.
    pub fn encode(&self) -> Vec<u8> {
        let mut bytes = Vec::new();
        put_words(&mut bytes, &[self.kind, self.a, self.b]);
        put_words(&mut bytes, &self.sizes());
        self.put_state(&mut bytes);
        bytes
    }

    /// "Output for one case": the answer and everything after the call.
    pub fn encode_output(&self, answer: &Answer) -> Vec<u8> {
        let mut bytes = Vec::new();
        let Answer {
            reply,
            value,
            interrupts,
        } = *answer;
        put_words(&mut bytes, &[reply.number(), value, interrupts]);
        self.put_state(&mut bytes);
        bytes
    }

    fn put_state(&self, bytes: &mut Vec<u8>) {
        put_words(bytes, &self.machine.saved.to_words());
        put_words(bytes, &self.machine.send_ram);
        put_words(bytes, &self.machine.receive_ram);
        put_padded(bytes, &self.machine.data);
        put_words(bytes, &self.machine.notices);
        put_padded(bytes, &self.rooms.packet);
        put_words(bytes, &self.rooms.notice);
    }

    /// The next case of the input; `None` at its end: "A truncated last case is ignored", "A case
    /// beyond one of these ends the run".
    pub fn decode(input: &mut impl Read) -> io::Result<Option<Case>> {
        let head = match get_bytes(input, 4 * HEAD_WORDS)? {
            Some(head) => words_of(&head),
            None => return Ok(None),
        };
        let sizes: [u32; 6] = head[3..9].try_into().expect("six sizes");
        if sizes.iter().zip(LIMITS).any(|(&size, limit)| size > limit) {
            return Ok(None);
        }
        let parts = parts_of(sizes);
        let contents = get_bytes(input, parts.iter().sum())?;
        Ok(contents.map(|contents| Case::assemble(&head, sizes, parts, &contents)))
    }

    fn assemble(head: &[u32], sizes: [u32; 6], parts: [usize; 6], contents: &[u8]) -> Case {
        let mut rest = contents;
        let [send, receive, data, notices, packet, room] = parts.map(|part| {
            let (bytes, after) = rest.split_at(part);
            rest = after;
            bytes
        });
        Case {
            kind: head[0],
            a: head[1],
            b: head[2],
            machine: Machine {
                saved: Saved::from_words(head[9..].try_into().expect("fifteen saved words")),
                send_ram: words_of(send),
                receive_ram: words_of(receive),
                data: data[..sizes[2] as usize].to_vec(),
                notices: words_of(notices),
                wrong: None,
            },
            rooms: Rooms {
                packet: packet[..sizes[4] as usize].to_vec(),
                notice: words_of(room),
            },
        }
    }
}

/// How many bytes each part takes: data and packet are bytes, the others words.
fn parts_of(sizes: [u32; 6]) -> [usize; 6] {
    let [send, receive, data, notices, packet, room] = sizes.map(|size| size as usize);
    [
        4 * send,
        4 * receive,
        4 * words_for(data),
        4 * notices,
        4 * words_for(packet),
        4 * room,
    ]
}

/// How many words it takes to hold so many bytes.
pub fn words_for(bytes: usize) -> usize {
    (bytes + 3) / 4
}

fn put_words(bytes: &mut Vec<u8>, words: &[u32]) {
    for word in words {
        bytes.extend(word.to_le_bytes());
    }
}

/// "padded with zero bytes to a multiple of 4".
fn put_padded(bytes: &mut Vec<u8>, part: &[u8]) {
    bytes.extend(part);
    let padding = 4 * words_for(part.len()) - part.len();
    bytes.resize(bytes.len() + padding, 0);
}

fn words_of(bytes: &[u8]) -> Vec<u32> {
    bytes
        .chunks_exact(4)
        .map(|word| u32::from_le_bytes([word[0], word[1], word[2], word[3]]))
        .collect()
}

/// Exactly so many bytes, or `None` if the input ends before.
fn get_bytes(input: &mut impl Read, count: usize) -> io::Result<Option<Vec<u8>>> {
    let mut bytes = Vec::with_capacity(count);
    input.take(count as u64).read_to_end(&mut bytes)?;
    Ok((bytes.len() == count).then_some(bytes))
}

/// Answers case after case to the end of the input.
pub fn run(mut input: impl Read, mut output: impl Write, wrong: Option<Wrong>) -> io::Result<()> {
    while let Some(mut case) = Case::decode(&mut input)? {
        let answer = case.run(wrong);
        output.write_all(&case.encode_output(&answer))?;
    }
    output.flush()
}

//! 01, "The station program": records of 192 bytes in, a line for each out.

use std::io::{self, Read, Write};

use crate::call::{Call, Rooms};
use crate::engine::packet::LONGEST;
use crate::engine::{Answer, Machine};
use crate::wrong::Wrong;

/// "records of 192 bytes: kind, 3 zero bytes, two numbers of 4 bytes, length of 4, 168 bytes of
/// packet, 8 zero".
pub const RECORD: usize = 192;
pub const FIRST_AT: usize = 4;
pub const SECOND_AT: usize = 8;
pub const LENGTH_AT: usize = 12;
pub const PACKET_AT: usize = 16;

/// The call a record asks for.
pub fn call_of(record: &[u8]) -> Call {
    // "A torn last record is kind 0, length ignored."
    if record.len() < RECORD {
        return Call::Unknown { kind: 0 };
    }
    let number = |at: usize| {
        let bytes = [record[at], record[at + 1], record[at + 2], record[at + 3]];
        u32::from_be_bytes(bytes)
    };
    let length = number(LENGTH_AT) as usize;
    // "length; above 168 is no-packet": then the whole rest of the record, itself too long to be
    // a packet, stands for it.
    let packet = if length > LONGEST {
        &record[PACKET_AT..]
    } else {
        &record[PACKET_AT..PACKET_AT + length]
    };
    Call::of(
        u32::from(record[0]),
        number(FIRST_AT),
        number(SECOND_AT),
        packet,
    )
}

/// "Each line: kind, word, value as 8 lowercase hex digits, interrupts."
pub fn line(kind: u32, answer: &Answer) -> String {
    let Answer {
        reply,
        value,
        interrupts,
    } = answer;
    format!("{kind} {} {value:08x} {interrupts}\n", reply.word())
}

/// The records of an input, the last perhaps torn.
pub struct Records<R> {
    input: R,
}

impl<R: Read> Records<R> {
    pub fn new(input: R) -> Records<R> {
        Records { input }
    }
}

impl<R: Read> Iterator for Records<R> {
    type Item = io::Result<Vec<u8>>;

    fn next(&mut self) -> Option<io::Result<Vec<u8>>> {
        let mut record = Vec::with_capacity(RECORD);
        let limited = self.input.by_ref().take(RECORD as u64);
        match { limited }.read_to_end(&mut record) {
            Err(error) => Some(Err(error)),
            Ok(0) => None,
            Ok(_) => Some(Ok(record)),
        }
    }
}

/// The station program itself.
pub fn run(input: impl Read, mut output: impl Write, wrong: Option<Wrong>) -> io::Result<()> {
    let mut machine = Machine::station(wrong);
    let mut rooms = Rooms::default();
    for record in Records::new(input) {
        let call = call_of(&record?);
        let answer = call.run(&mut machine, &mut rooms);
        output.write_all(line(call.kind(), &answer).as_bytes())?;
    }
    output.flush()
}

#[cfg(test)]
mod tests {
    use super::*;

    fn record(kind: u8, first: u32, second: u32) -> Vec<u8> {
        let mut bytes = vec![0; RECORD];
        bytes[0] = kind;
        bytes[FIRST_AT..SECOND_AT].copy_from_slice(&first.to_be_bytes());
        bytes[SECOND_AT..LENGTH_AT].copy_from_slice(&second.to_be_bytes());
        bytes
    }

    fn lines(input: &[u8]) -> String {
        let mut output = Vec::new();
        run(input, &mut output, None).expect("memory takes all");
        String::from_utf8(output).expect("lines are ASCII")
    }

    /// "For write 0 0x40030007; read 0; write 0x01C 0x20; send 1; write 0x01C 0".
    #[test]
    fn the_example_of_the_paper() {
        let input = [
            record(1, 0, 0x4003_0007),
            record(2, 0, 0),
            record(1, 0x01C, 0x20),
            record(4, 1, 0),
            record(1, 0x01C, 0),
        ]
        .concat();
        let expected = "1 done 00000000 0\n\
                        2 done 40030007 0\n\
                        1 done 00000000 0\n\
                        4 quiet 00000000 0\n\
                        1 bad-value 00000000 0\n";
        assert_eq!(lines(&input), expected);
    }

    #[test]
    fn torn_unknown_and_overlong_records() {
        let mut overlong = record(3, 0, 0);
        overlong[LENGTH_AT..PACKET_AT].copy_from_slice(&169_u32.to_be_bytes());
        let mut input = [overlong.clone(), record(1, 0, 0x4000_0000), overlong].concat();
        input.extend(record(255, 0, 0));
        input.push(3);
        let expected = "3 off 00000000 0\n\
                        1 done 00000000 0\n\
                        3 no-packet 00000000 0\n\
                        255 no-register 00000000 0\n\
                        0 no-register 00000000 0\n";
        assert_eq!(lines(&input), expected);
    }
}

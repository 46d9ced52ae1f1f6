//! Calls written down as records of the station program.

use std::io::{self, Write};

use super::driver::Recorder;
use crate::call::Call;
use crate::engine::packet::LONGEST;
use crate::engine::Machine;
use crate::rng::Rng;
use crate::station::{FIRST_AT, LENGTH_AT, PACKET_AT, RECORD, SECOND_AT};

pub struct StationRecorder<W> {
    rng: Rng,
    left: u64,
    torn: bool,
    output: W,
    result: io::Result<()>,
}

impl<W: Write> StationRecorder<W> {
    pub fn new(mut rng: Rng, count: u64, output: W) -> StationRecorder<W> {
        StationRecorder {
            torn: rng.chance(30),
            rng,
            left: count,
            output,
            result: Ok(()),
        }
    }

    pub fn finish(mut self) -> io::Result<()> {
        self.result?;
        self.output.flush()
    }

    fn encode(&mut self, call: &Call) -> [u8; RECORD] {
        let mut record = [0; RECORD];
        if self.rng.chance(6) {
            self.fill_what_nobody_reads(&mut record);
        }
        let (first, second) = call.numbers();
        record[0] = call.kind() as u8;
        let mut put = |at: usize, number: u32| {
            record[at..at + 4].copy_from_slice(&number.to_be_bytes());
        };
        match call {
            Call::Write { .. } => {
                put(FIRST_AT, first);
                put(SECOND_AT, second);
            }
            Call::Read { .. } | Call::Send { .. } | Call::Take { .. } => put(FIRST_AT, first),
            Call::Receive { packet } => {
                let length = self.length_to_tell(packet.len());
                put(LENGTH_AT, length);
                let bytes = packet.len().min(LONGEST);
                record[PACKET_AT..PACKET_AT + bytes].copy_from_slice(&packet[..bytes]);
            }
            Call::Unknown { .. } => {}
        }
        record
    }

    /// "The zero bytes are not checked", nor what a kind does not use.
    fn fill_what_nobody_reads(&mut self, record: &mut [u8; RECORD]) {
        let junk = self.rng.bytes(RECORD);
        record.copy_from_slice(&junk);
    }

    /// "length; above 168 is no-packet": any such length will do.
    fn length_to_tell(&mut self, length: usize) -> u32 {
        if length > LONGEST && self.rng.chance(50) {
            let high = length as u32 | 1 << self.rng.range(8, 31);
            self.rng.pick(&[u32::MAX, 0x8000_0014, high])
        } else {
            length as u32
        }
    }
}

impl<W: Write> Recorder for StationRecorder<W> {
    fn record(&mut self, _before: &Machine, call: &Call) {
        if self.is_full() {
            return;
        }
        self.left -= 1;
        let record = self.encode(call);
        let length = if self.left == 0 && self.torn {
            self.rng.range(1, RECORD as u32 - 1) as usize
        } else {
            RECORD
        };
        self.result = self.output.write_all(&record[..length]);
    }

    fn is_full(&self) -> bool {
        self.left == 0 || self.result.is_err()
    }

    fn likes_looks(&self) -> bool {
        true
    }
}

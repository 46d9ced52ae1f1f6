//! Calls written down now and then as raw cases: with the state they meet, mutated.

use std::io::{self, Write};

use super::driver::Recorder;
use super::{mutate_call, mutate_deep, mutate_unsound};
use crate::call::{Call, Rooms};
use crate::engine::packet::LONGEST;
use crate::engine::Machine;
use crate::raw::Case;
use crate::rng::Rng;

/// How many of a hundred cases shall be writes, reads, receipts, sends, takes.
const SHARES: [u64; 5] = [22, 7, 37, 20, 14];

pub struct RawRecorder<W> {
    rng: Rng,
    left: u64,
    written: [u64; 5],
    output: W,
    result: io::Result<()>,
}

impl<W: Write> RawRecorder<W> {
    pub fn new(rng: Rng, count: u64, output: W) -> RawRecorder<W> {
        RawRecorder {
            rng,
            left: count,
            written: [0; 5],
            output,
            result: Ok(()),
        }
    }

    pub fn finish(mut self) -> io::Result<()> {
        self.result?;
        self.output.flush()
    }

    /// A kind that is below its share is wanted, but not at once, so that states differ.
    fn wants(&mut self, call: &Call) -> bool {
        let index = match call.kind() {
            kind @ 1..=5 => kind as usize - 1,
            _ => return false,
        };
        let total: u64 = self.written.iter().sum();
        let below_share = 100 * self.written[index] <= SHARES[index] * total;
        // pointers are set before much else, and tell little
        let dull = matches!(
            call,
            Call::Write {
                register: 0x040 | 0x080,
                ..
            }
        );
        let wanted = below_share && self.rng.chance(if dull { 2 } else { 15 });
        if wanted {
            self.written[index] += 1;
        }
        wanted
    }

    /// Rooms filled with anything; mostly just long enough where they matter.
    fn some_rooms(&mut self, call: &Call) -> Rooms {
        let rng = &mut self.rng;
        let packet = match call {
            Call::Send { .. } if rng.chance(85) => LONGEST,
            Call::Send { .. } => rng.pick(&[0, 1, 20, 167, 167, 169, 200, 1024]),
            _ => rng.pick(&[0, 0, 3, 8]),
        };
        let notice = match call {
            Call::Take { .. } if rng.chance(85) => 8,
            Call::Take { .. } => rng.pick(&[0, 1, 7, 7, 9, 64]),
            _ => rng.pick(&[0, 0, 8]),
        };
        Rooms {
            packet: rng.bytes(packet),
            notice: (0..notice).map(|_| rng.word()).collect(),
        }
    }

    /// Zero to three mutations, most of which leave the state sound.
    fn mutate(&mut self, case: &mut Case) {
        let rng = &mut self.rng;
        if rng.chance(25) {
            mutate_call::mutate(case, rng);
        }
        if case.kind == 3 && rng.chance(60) {
            mutate_call::forge_packet(case, rng);
        }
        for _ in 0..rng.pick(&[0, 1, 1, 2, 2]) {
            mutate_deep::mutate(case, rng);
        }
        // of an unknown call only these two can be seen
        let unknown = !(1..=5).contains(&case.kind);
        let unsound = rng.chance(if unknown { 30 } else { 14 });
        if unsound {
            mutate_unsound::mutate(case, rng);
        }
        let missized = rng.chance(if unknown { 20 } else { 5 });
        if missized {
            mutate_unsound::missize(case, rng);
        }
        if (unsound || missized) && rng.chance(20) {
            mutate_call::make_reset(case, rng);
        }
    }
}

impl<W: Write> Recorder for RawRecorder<W> {
    fn record(&mut self, before: &Machine, call: &Call) {
        if self.is_full() || !self.wants(call) {
            return;
        }
        self.left -= 1;
        let rooms = self.some_rooms(call);
        let mut case = Case::new(call, before.clone(), rooms);
        self.mutate(&mut case);
        self.result = self.output.write_all(&case.encode());
    }

    fn is_full(&self) -> bool {
        self.left == 0 || self.result.is_err()
    }

    fn likes_looks(&self) -> bool {
        false
    }
}

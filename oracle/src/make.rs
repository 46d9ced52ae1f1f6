//! Seeded generators of test inputs: streams of station records, and raw cases.
//!
//! A `Driver` runs episodes on the oracle's own engine, so that each next call is chosen with
//! the state in view; a `Recorder` writes the calls down as station records, or now and then as
//! raw cases with the state they met.

mod blocks;
mod damage;
mod driver;
mod episodes;
mod floods;
mod forge;
mod looks;
mod messages;
mod mutate_call;
mod mutate_deep;
mod mutate_receipt;
mod mutate_unsound;
mod plans;
mod planting;
mod raw_recorder;
mod settings;
mod staging;
mod station_recorder;

use std::io::{self, Write};

use crate::engine::layout::{DATA_BYTES_MOST, NOTICE_WORDS_MOST};
use crate::engine::Machine;
use crate::rng::Rng;
use driver::Driver;
use raw_recorder::RawRecorder;
use station_recorder::StationRecorder;

/// `count` records of 192 bytes; with some seeds the last is torn.
pub fn station(seed: u64, count: u64, output: impl Write) -> io::Result<()> {
    let mut rng = Rng::new(seed);
    let mut recorder = StationRecorder::new(rng.fork(), count, output);
    let mut driver = Driver::new(Machine::station(None), rng, &mut recorder);
    while !driver.is_over() {
        driver.station_episode();
    }
    recorder.finish()
}

/// `count` cases in the raw format of tests/vectors/README.md.
pub fn raw(seed: u64, count: u64, output: impl Write) -> io::Result<()> {
    let mut rng = Rng::new(seed);
    let mut recorder = RawRecorder::new(rng.fork(), count, output);
    let mut over = false;
    while !over {
        let machine = small_machine(&mut rng);
        let mut driver = Driver::new(machine, rng.fork(), &mut recorder);
        driver.raw_episode();
        over = driver.is_over();
    }
    recorder.finish()
}

/// A machine just reset, with memories of any right size, mostly small ones; random bytes where
/// a reset leaves them.
fn small_machine(rng: &mut Rng) -> Machine {
    let data_bytes = match rng.below(40) {
        0 => 0,
        1 => DATA_BYTES_MOST as u32,
        2 => rng.range(32_000, DATA_BYTES_MOST as u32),
        3..=6 => rng.below(8),
        7..=20 => rng.below(600),
        _ => rng.range(300, 1_500),
    };
    let eights = match rng.below(40) {
        0 => 1,
        1 => 2,
        2 => NOTICE_WORDS_MOST as u32 / 8,
        3..=8 => rng.range(3, 6),
        _ => rng.range(6, 60),
    };
    let mut machine = Machine::zeroed(data_bytes as usize, 8 * eights as usize);
    machine.data = rng.bytes(data_bytes as usize);
    for word in &mut machine.send_ram {
        *word = rng.word();
    }
    machine.write(0, 0x8000_0000);
    machine
}

#[cfg(test)]
mod tests {
    use super::*;
    use crate::raw::Case;
    use crate::station::RECORD;

    fn stream(seed: u64, count: u64) -> Vec<u8> {
        let mut bytes = Vec::new();
        station(seed, count, &mut bytes).expect("memory takes all");
        bytes
    }

    fn cases(seed: u64, count: u64) -> Vec<u8> {
        let mut bytes = Vec::new();
        raw(seed, count, &mut bytes).expect("memory takes all");
        bytes
    }

    #[test]
    fn a_seed_decides_everything() {
        assert_eq!(stream(3, 2_000), stream(3, 2_000));
        assert_ne!(stream(3, 2_000), stream(4, 2_000));
        assert_eq!(cases(3, 50), cases(3, 50));
        assert_ne!(cases(3, 50), cases(4, 50));
    }

    #[test]
    fn streams_have_the_asked_length_but_for_a_torn_end() {
        let lengths: Vec<usize> = (0..20).map(|seed| stream(seed, 300).len()).collect();
        let asked = 299 * RECORD + 1..=300 * RECORD;
        assert!(lengths.iter().all(|length| asked.contains(length)));
        assert!(lengths.iter().any(|length| length % RECORD == 0));
        assert!(lengths.iter().any(|length| length % RECORD != 0));
    }

    /// A case beyond a limit, or a torn one, would end the run before its time.
    #[test]
    fn cases_stay_within_the_limits() {
        let bytes = cases(5, 400);
        let mut rest = &bytes[..];
        let mut count = 0;
        while Case::decode(&mut rest).expect("memory gives all").is_some() {
            count += 1;
        }
        assert_eq!((count, rest.len()), (400, 0));
    }
}

//! How often what happens: kind by reply, fault statuses, interrupts.

use std::collections::BTreeMap;
use std::fmt;
use std::io::{self, Read};

use crate::call::Rooms;
use crate::engine::{Answer, Machine, Reply};
use crate::raw::Case;
use crate::station::{call_of, Records};

/// The rows: the five kinds and all others together.
const KINDS: [&str; 6] = ["write", "read", "receive", "send", "take", "unknown"];

fn row(kind: u32) -> usize {
    match kind {
        1..=5 => kind as usize - 1,
        _ => 5,
    }
}

#[derive(Default)]
pub struct Counts {
    replies: [[u64; 16]; KINDS.len()],
    statuses: BTreeMap<u32, u64>,
    interrupts: [[u64; 8]; KINDS.len()],
}

impl Counts {
    fn add(&mut self, kind: u32, answer: &Answer) {
        self.replies[row(kind)][answer.reply.number() as usize] += 1;
        self.interrupts[row(kind)][answer.interrupts as usize] += 1;
        if answer.reply == Reply::Fault {
            *self.statuses.entry(answer.value).or_default() += 1;
        }
    }

    /// All records of a station stream.
    pub fn of_station(input: impl Read) -> io::Result<Counts> {
        let mut counts = Counts::default();
        let mut machine = Machine::station(None);
        let mut rooms = Rooms::default();
        for record in Records::new(input) {
            let call = call_of(&record?);
            let answer = call.run(&mut machine, &mut rooms);
            counts.add(call.kind(), &answer);
        }
        Ok(counts)
    }

    /// All raw cases.
    pub fn of_raw(mut input: impl Read) -> io::Result<Counts> {
        let mut counts = Counts::default();
        while let Some(mut case) = Case::decode(&mut input)? {
            let answer = case.run(None);
            counts.add(case.kind, &answer);
        }
        Ok(counts)
    }

    fn print_row(out: &mut fmt::Formatter, name: &str, numbers: &[u64]) -> fmt::Result {
        write!(out, "{name:<14}")?;
        for &number in numbers {
            if number == 0 {
                write!(out, "{:>9}", ".")?;
            } else {
                write!(out, "{number:>9}")?;
            }
        }
        writeln!(out)
    }
}

impl fmt::Display for Counts {
    fn fmt(&self, out: &mut fmt::Formatter) -> fmt::Result {
        write!(out, "{:<14}", "reply")?;
        for kind in KINDS {
            write!(out, "{kind:>9}")?;
        }
        writeln!(out)?;
        for reply in Reply::TABLE {
            let number = reply.number() as usize;
            let name = format!("{:>2} {}", reply.number(), reply.word());
            Counts::print_row(out, &name, &self.replies.map(|kind| kind[number]))?;
        }
        writeln!(out, "\ninterrupts")?;
        for sum in 0..8 {
            let of_kinds = self.interrupts.map(|kind| kind[sum]);
            Counts::print_row(out, &sum.to_string(), &of_kinds)?;
        }
        writeln!(out, "\nfault status")?;
        for (status, &count) in &self.statuses {
            Counts::print_row(out, &format!("0x{status:04X}"), &[count])?;
        }
        Ok(())
    }
}

#[cfg(test)]
mod tests {
    use super::*;
    use crate::make;

    /// 01's table of replies, call by call.
    const POSSIBLE: [&[u32]; KINDS.len()] = [
        &[0, 13, 14, 2, 3, 5, 4, 6],
        &[0, 13, 14, 2],
        &[0, 13, 14, 1, 7, 8, 9],
        &[0, 13, 14, 1, 10, 11, 8, 15],
        &[0, 13, 14, 4, 10, 12, 6],
        &[13, 14, 2],
    ];

    fn replies_seen(counts: &Counts, kind: usize) -> Vec<u32> {
        let seen = |number: &u32| counts.replies[kind][*number as usize] > 0;
        (0..16).filter(seen).collect()
    }

    #[test]
    fn raw_cases_meet_every_reply_a_call_can_give() {
        let mut input = Vec::new();
        make::raw(1, 3_000, &mut input).expect("memory takes all");
        let counts = Counts::of_raw(&input[..]).expect("memory gives all");
        for (kind, possible) in POSSIBLE.iter().enumerate() {
            let mut possible = possible.to_vec();
            possible.sort_unstable();
            assert_eq!(replies_seen(&counts, kind), possible, "{}", KINDS[kind]);
        }
    }

    /// A station's state is always sound, its sizes right, its rooms long enough.
    #[test]
    fn station_records_meet_every_reply_a_station_can_give() {
        let mut input = Vec::new();
        make::station(1, 60_000, &mut input).expect("memory takes all");
        let counts = Counts::of_station(&input[..]).expect("memory gives all");
        for (kind, possible) in POSSIBLE.iter().enumerate() {
            let mut possible = possible.to_vec();
            possible.retain(|number| ![10, 13, 14].contains(number));
            possible.sort_unstable();
            assert_eq!(replies_seen(&counts, kind), possible, "{}", KINDS[kind]);
        }
    }
}

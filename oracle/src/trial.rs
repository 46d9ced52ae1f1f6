//! Each deliberate mistake against generated inputs: is it caught, how often, how soon?

use std::io;

use crate::call::{Call, Rooms};
use crate::engine::{Answer, Machine};
use crate::make;
use crate::raw::Case;
use crate::station::{call_of, Records};
use crate::wrong::Wrong;

/// Generated inputs with the right answers.
pub struct Trial {
    calls: Vec<Call>,
    answers: Vec<Answer>,
    cases: Vec<Case>,
    outputs: Vec<Vec<u8>>,
}

/// Which answers of a mistaken engine differ.
pub struct Caught {
    /// Counted from 1.
    first: Option<usize>,
    count: usize,
}

impl Caught {
    fn by(differs: impl Iterator<Item = bool>) -> Caught {
        let mut caught = Caught {
            first: None,
            count: 0,
        };
        for (place, differs) in differs.enumerate() {
            if differs {
                caught.first.get_or_insert(place + 1);
                caught.count += 1;
            }
        }
        caught
    }

    pub fn in_words(&self) -> String {
        match self.first {
            None => "not caught".to_string(),
            Some(first) => format!("{} differ, first {first}", self.count),
        }
    }

    pub fn is_caught(&self) -> bool {
        self.first.is_some()
    }
}

fn station_answers(calls: &[Call], wrong: Option<Wrong>) -> Vec<Answer> {
    let mut machine = Machine::station(wrong);
    let mut rooms = Rooms::default();
    calls
        .iter()
        .map(|call| call.run(&mut machine, &mut rooms))
        .collect()
}

fn raw_output(case: &Case, wrong: Option<Wrong>) -> Vec<u8> {
    let mut case = case.clone();
    let answer = case.run(wrong);
    case.encode_output(&answer)
}

impl Trial {
    pub fn new(seed: u64, records: u64, cases: u64) -> io::Result<Trial> {
        let mut stream = Vec::new();
        make::station(seed, records, &mut stream)?;
        let calls = Records::new(&stream[..])
            .map(|record| Ok(call_of(&record?)))
            .collect::<io::Result<Vec<Call>>>()?;
        let mut raw = Vec::new();
        make::raw(seed, cases, &mut raw)?;
        let mut rest = &raw[..];
        let mut cases = Vec::new();
        while let Some(case) = Case::decode(&mut rest)? {
            cases.push(case);
        }
        Ok(Trial {
            answers: station_answers(&calls, None),
            calls,
            outputs: cases.iter().map(|case| raw_output(case, None)).collect(),
            cases,
        })
    }

    pub fn station(&self, wrong: Wrong) -> Caught {
        let answers = station_answers(&self.calls, Some(wrong));
        Caught::by(answers.iter().zip(&self.answers).map(|(a, b)| a != b))
    }

    pub fn raw(&self, wrong: Wrong) -> Caught {
        let pairs = self.cases.iter().zip(&self.outputs);
        Caught::by(pairs.map(|(case, right)| raw_output(case, Some(wrong)) != *right))
    }
}

//! Another program's output against the oracle's: the first difference, explained.

use std::io::{self, Read};

use crate::call::Rooms;
use crate::engine::{Machine, Saved};
use crate::explain;
use crate::names;
use crate::raw::{words_for, Case};
use crate::station::{call_of, line, Records};

/// The first line that differs; `None` if none does.
pub fn station(input: &[u8], output: &str) -> io::Result<Option<String>> {
    let mut machine = Machine::station(None);
    let mut rooms = Rooms::default();
    let mut found = output.lines();
    let mut number = 0;
    for record in Records::new(input) {
        number += 1;
        let call = call_of(&record?);
        let answer = call.run(&mut machine, &mut rooms);
        let expected = line(call.kind(), &answer);
        let got = found.next().unwrap_or("nothing");
        if expected.trim_end() != got {
            let words = explain::station(input, number)?;
            return Ok(Some(format!("{words}  the other answers: {got}\n")));
        }
    }
    Ok(found
        .next()
        .map(|more| format!("the other goes on after record {number}: {more}\n")))
}

/// The first case whose output differs, and every word of it that does.
pub fn raw(mut input: impl Read, mut output: impl Read) -> io::Result<Option<String>> {
    let mut number = 0;
    while let Some(mut case) = Case::decode(&mut input)? {
        number += 1;
        let mut ran = case.clone();
        let answer = ran.run(None);
        let expected = ran.encode_output(&answer);
        let mut found = Vec::new();
        output
            .by_ref()
            .take(expected.len() as u64)
            .read_to_end(&mut found)?;
        if found != expected {
            let mut text = format!("case {number}: ") + &explain::case_in_words(&mut case);
            text += &differing_words(&ran, &expected, &found);
            return Ok(Some(text));
        }
    }
    let mut more = Vec::new();
    output.read_to_end(&mut more)?;
    let ends = more.is_empty();
    Ok((!ends).then(|| format!("the other goes on after case {number}\n")))
}

fn differing_words(case: &Case, expected: &[u8], found: &[u8]) -> String {
    if found.len() < expected.len() {
        return "  the other's output ends within this case\n".to_string();
    }
    let mut text = String::new();
    let pairs = expected.chunks(4).zip(found.chunks(4)).enumerate();
    for (word, (right, wrong)) in pairs.filter(|(_, (right, wrong))| right != wrong) {
        let place = output_place(case, word);
        text += &format!("  the other leaves {place}: {wrong:02x?}, not {right:02x?}\n");
    }
    text
}

/// What stands in word `word` of a case's output.
fn output_place(case: &Case, word: usize) -> String {
    let machine = &case.machine;
    let answer = |word: usize| ["the reply", "the value", "the interrupts"][word].to_string();
    let saved = |word: usize| Saved::NAMES[word].to_string();
    let data = |word: usize| format!("data bytes from {:#x}", 4 * word);
    let packet = |word: usize| format!("packet room bytes from {}", 4 * word);
    let notice = |word: usize| format!("notice room word {word}");
    let parts: [(usize, &dyn Fn(usize) -> String); 8] = [
        (3, &answer),
        (Saved::WORDS, &saved),
        (machine.send_ram.len(), &names::send_word),
        (machine.receive_ram.len(), &names::receive_word),
        (words_for(machine.data.len()), &data),
        (machine.notices.len(), &names::notice_word),
        (words_for(case.rooms.packet.len()), &packet),
        (case.rooms.notice.len(), &notice),
    ];
    let mut rest = word;
    for (length, name) in parts {
        if rest < length {
            return name(rest);
        }
        rest -= length;
    }
    format!("word {word}")
}

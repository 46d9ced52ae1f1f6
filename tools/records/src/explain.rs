//! Records and the station's lines for them, in plain words. Only what the two files show is said:
//! where the lines do not fit, the state is not known from there to the next reset.

mod answers;
mod bad_values;
mod calls;
mod doubts;
mod faults;
mod packets;
mod refusals;

use crate::call::Call;
use crate::known::Known;
use crate::record::{entries, Entry};
use crate::reply::{Line, Reply};

pub fn all(file: &[u8], lines: &[Line]) -> String {
    let entries = entries(file);
    let mut text = counts(entries.len(), lines.len());
    // "Memories are the largest, zero, then reset by writing 0x80000000 to PCSR0."
    let mut known = Known::after_reset(0x8000_0000);
    for (place, entry) in entries.iter().enumerate() {
        let call = Call::of(entry);
        text += &format!("record {}: {}\n", place + 1, calls::head(&call, &known));
        text += &indented(&calls::details(&call, &known));
        text += &answer(lines.get(place), entry, &mut known);
    }
    for (place, line) in lines.iter().enumerate().skip(entries.len()) {
        text += &format!("line {} without a record: {}\n", place + 1, line.text);
    }
    text
}

fn counts(records: usize, lines: usize) -> String {
    if records == lines {
        return String::new();
    }
    format!(
        "There are {records} records and {lines} lines; a station prints a line for each record.\n"
    )
}

/// The line of a record in words; afterwards `known` has followed it.
fn answer(line: Option<&Line>, entry: &Entry, known: &mut Known) -> String {
    let line = match line {
        Some(line) => line,
        None => {
            *known = Known::nothing();
            return "  no line\n".to_string();
        }
    };
    let mut text = format!("  {}\n", line.text);
    if line.kind != entry.kind() {
        *known = Known::nothing();
        let (own, kind) = (line.kind, entry.kind());
        let misfit = format!("this line is for kind {own}, the record is of kind {kind}");
        return text + &indented(&[misfit]);
    }
    let call = Call::of(entry);
    text += &indented(&meaning(&call, line, known));
    known.follow(&call, line);
    text
}

fn meaning(call: &Call, line: &Line, known: &Known) -> Vec<String> {
    let mut said = match line.reply {
        reply if !refusals::is_possible(call, reply) => {
            vec!["document 01 has no such reply for this call".to_string()]
        }
        Reply::Done => answers::done(call, line.value, known),
        Reply::Fault => faults::why(call, line.value, known),
        reply => refusals::why(call, reply, known),
    };
    let refused = !matches!(line.reply, Reply::Done | Reply::Fault);
    if refused && (line.value != 0 || line.interrupts != 0) {
        said.push("by document 01 a refusal's value and interrupts are 0".to_string());
    }
    said.extend(answers::interrupts(line.interrupts));
    said.extend(doubts::doubt(call, line, known));
    said
}

fn indented(said: &[String]) -> String {
    said.iter().map(|line| format!("    {line}\n")).collect()
}

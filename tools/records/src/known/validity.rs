//! 01, "Slot words": what a slot lacks to be valid.

use super::{Known, Words, LISTS};
use crate::fields::{part, SLOT2, SLOT6};
use crate::places::DATA_BYTES;

const LARGEST_24: i64 = 0xFF_FFFF;

/// A rule that is broken or not, and how it is said.
type Rule = (bool, String);

impl Known {
    /// "Valid needs: [...]": what is not so. None if it is not known.
    pub fn why_not_valid(&self, slot: usize) -> Option<Vec<String>> {
        let words = self.slots.get(slot)?;
        let rules = [flag_rules(words)?, list_rules(words)?, number_rules(words)?];
        let broken = rules.concat().into_iter().filter(|(broken, _)| *broken);
        Some(broken.map(|(_, rule)| rule).collect())
    }
}

/// "valid 1, indirect and reserve 0".
fn flag_rules(words: &Words) -> Option<Vec<Rule>> {
    let flag = |name| Some(part(words[2]?, SLOT2, name));
    Some(vec![
        (flag("valid")? == 0, "its valid bit is 0".to_string()),
        (flag("indirect")? == 1, "its indirect bit is 1".to_string()),
        (
            flag("reserve")? != 0,
            "its reserve bits are not 0".to_string(),
        ),
    ])
}

/// "ack_note_index below 64, note_index below 64 if notify".
fn list_rules(words: &Words) -> Option<Vec<Rule>> {
    let is_list = |index: u32| index < LISTS as u32;
    let ack_list = part(words[6]?, SLOT6, "ack_note_index");
    let list = part(words[2]?, SLOT2, "note_index");
    let notifies = part(words[2]?, SLOT2, "notify") == 1;
    Some(vec![
        (
            !is_list(ack_list),
            format!("ack_note_index is {ack_list}, not below 64"),
        ),
        (
            notifies && !is_list(list),
            format!("it notifies, and note_index is {list}, not below 64"),
        ),
    ])
}

/// "base plus size inside data memory, bytes_to_go within 16,777,215 either way", "words 4 and 5
/// below 2^24, word 7 only flag and length".
fn number_rules(words: &Words) -> Option<Vec<Rule>> {
    let end = u64::from(words[0]?) + u64::from(words[1]?);
    let bytes_to_go = i64::from(words[3]? as i32);
    let rule = |broken, text: &str| (broken, text.to_string());
    Some(vec![
        (
            end > DATA_BYTES.into(),
            format!("base plus size is {end}, above the data memory's {DATA_BYTES} bytes"),
        ),
        (
            bytes_to_go.abs() > LARGEST_24,
            format!("bytes_to_go is {bytes_to_go}"),
        ),
        rule(words[4]? >> 24 != 0, "msg_size is not below 2^24"),
        rule(words[5]? >> 24 != 0, "msg_offset is not below 2^24"),
        rule(
            words[7]? & 0xF0FF_FFFF != 0,
            "word 7 has more than flag and length",
        ),
    ])
}

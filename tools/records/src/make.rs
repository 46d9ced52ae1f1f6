//! A well formed packet from named fields, its checks computed.

use std::path::Path;

use crate::numbers::{number_of, number_up_to, Result};
use crate::packet::{check, PAYLOAD_MOST};
use crate::text::source::bytes_from;

const EXPECTED: &str = "expected dst=, slot=, src=, incarnation=, offset=, size=, use_size, \
                        use_offset, ack, meta=, meta_len= or payload=";
const LARGEST_24: u32 = 0xFF_FFFF;

/// What the words ask for. Fields that are not named are 0.
#[derive(Default)]
struct Draft {
    dst_node: u32,
    slot: u32,
    src_node: u32,
    incarnation: u32,
    offset: u32,
    size: u32,
    use_size: bool,
    use_offset: bool,
    ack: bool,
    metadata: Option<[u32; 4]>,
    meta_len: Option<u32>,
    payload: Vec<u8>,
}

/// The packet's bytes. A payload's file stands in `folder`.
pub fn packet(words: &[&str], folder: &Path) -> Result<Vec<u8>> {
    let mut draft = Draft::default();
    for (place, word) in words.iter().enumerate() {
        let (name, value) = match word.split_once('=') {
            Some((name, value)) => (name, Some(value)),
            None => (*word, None),
        };
        let same = |before: &&str| before.split('=').next() == Some(name);
        if words[..place].iter().any(same) {
            return Err(format!("{name} stands twice; expected it once"));
        }
        match value {
            Some(value) => draft.set(name, value, folder)?,
            None => draft.mark(name)?,
        }
    }
    draft.judge()?;
    Ok(draft.encode())
}

impl Draft {
    fn mark(&mut self, name: &str) -> Result<()> {
        match name {
            "use_size" => self.use_size = true,
            "use_offset" => self.use_offset = true,
            "ack" => self.ack = true,
            _ => return Err(format!("{name:?} in a packet; {EXPECTED}")),
        }
        Ok(())
    }

    fn set(&mut self, name: &str, value: &str, folder: &Path) -> Result<()> {
        let up_to = |most| number_up_to(most, name, value);
        match name {
            "dst" => self.dst_node = up_to(0xFFF)?,
            "slot" => self.slot = up_to(0xFFFF)?,
            "src" => self.src_node = up_to(0xFFF)?,
            "incarnation" => self.incarnation = up_to(0xF)?,
            "offset" => self.offset = up_to(LARGEST_24)?,
            "size" => self.size = up_to(LARGEST_24)?,
            "meta" => self.set_metadata(value)?,
            "meta_len" => self.meta_len = Some(up_to(4)?),
            "payload" => self.payload = bytes_from("the payload", &[value], folder)?,
            _ => return Err(format!("\"{name}={value}\" in a packet; {EXPECTED}")),
        }
        Ok(())
    }

    /// One to four words; those not given are 0.
    fn set_metadata(&mut self, value: &str) -> Result<()> {
        let given = value
            .split(',')
            .map(|word| number_of("a word of meta", word));
        let given = given.collect::<Result<Vec<u32>>>()?;
        let count = given.len();
        let mut words = [0; 4];
        if count > words.len() {
            return Err(format!("meta has {count} words; expected 1 to 4"));
        }
        words[..count].copy_from_slice(&given);
        self.metadata = Some(words);
        self.meta_len.get_or_insert(count as u32);
        Ok(())
    }

    /// 01: what is "Well formed".
    fn judge(&self) -> Result<()> {
        let count = self.payload.len();
        if count % 4 != 0 || count > PAYLOAD_MOST {
            return Err(format!(
                "the payload has {count} bytes; expected a multiple of 4, at most {PAYLOAD_MOST}"
            ));
        }
        if self.metadata.is_none() && self.meta_len.unwrap_or(0) > 0 {
            return Err("meta_len without meta; expected 0, or meta= beside it".into());
        }
        if self.ack && (self.metadata.is_some() || count > 0) {
            return Err("an ack with meta or payload; expected an ack of 20 bytes".into());
        }
        Ok(())
    }

    /// 01, "Packet", word by word.
    fn encode(&self) -> Vec<u8> {
        let meta_flag = u32::from(self.metadata.is_some());
        let words = [
            self.dst_node << 16,
            self.slot << 16 | self.src_node << 4,
            u32::from(self.use_size) << 31
                | u32::from(self.use_offset) << 30
                | u32::from(self.ack) << 29
                | self.incarnation << 24
                | self.offset,
            meta_flag << 27 | self.meta_len.unwrap_or(0) << 24 | self.size,
        ];
        let mut bytes = big_endian(&words);
        let metadata = self.metadata.map_or(Vec::new(), |words| big_endian(&words));
        let header_check = check(&[&bytes, &metadata]);
        bytes.extend(header_check.to_be_bytes());
        bytes.extend([0, 0]);
        bytes.extend(metadata);
        if !self.payload.is_empty() {
            bytes.extend(&self.payload);
            bytes.extend(check(&[&self.payload]).to_be_bytes());
            bytes.extend([0, 0]);
        }
        bytes
    }
}

fn big_endian(words: &[u32]) -> Vec<u8> {
    words.iter().flat_map(|word| word.to_be_bytes()).collect()
}

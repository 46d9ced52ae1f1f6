//! Numbers and bytes as people type them.

pub type Result<T> = std::result::Result<T, String>;

/// A number of 32 bits, decimal or hexadecimal with 0x.
pub fn number(text: &str) -> Option<u32> {
    let (digits, radix) = match text.strip_prefix("0x").or(text.strip_prefix("0X")) {
        Some(digits) => (digits, 16),
        None => (text, 10),
    };
    // from_str_radix would take a sign.
    let all_digits = digits.chars().all(|digit| digit.is_digit(radix));
    all_digits.then(|| u32::from_str_radix(digits, radix).ok())?
}

pub fn number_of(what: &str, text: &str) -> Result<u32> {
    number(text).ok_or_else(|| {
        format!("{what} is {text:?}; expected a number of 32 bits, decimal or hexadecimal with 0x")
    })
}

/// A number from 0 to `most`.
pub fn number_up_to(most: u32, what: &str, text: &str) -> Result<u32> {
    let number = number_of(what, text)?;
    if number > most {
        return Err(format!("{what} is {text}; expected at most {most}"));
    }
    Ok(number)
}

pub fn is_hex(text: &str) -> bool {
    !text.is_empty() && text.chars().all(|digit| digit.is_ascii_hexdigit())
}

/// Bytes from hexadecimal digits, two for each; spaces have been taken out.
pub fn bytes_of(what: &str, digits: &str) -> Result<Vec<u8>> {
    if let Some(wrong) = digits.chars().find(|digit| !digit.is_ascii_hexdigit()) {
        return Err(format!("{what} has {wrong:?}; expected hexadecimal digits"));
    }
    if digits.len() % 2 != 0 {
        let count = digits.len();
        return Err(format!(
            "{what} has {count} hexadecimal digits; expected two for each byte"
        ));
    }
    let pairs = digits.as_bytes().chunks(2);
    let values = pairs.map(|pair| nibble(pair[0]) << 4 | nibble(pair[1]));
    Ok(values.collect())
}

/// The value of a hexadecimal digit.
fn nibble(digit: u8) -> u8 {
    char::from(digit).to_digit(16).unwrap_or(0) as u8
}

pub fn hex(bytes: &[u8]) -> String {
    bytes.iter().map(|byte| format!("{byte:02x}")).collect()
}

/// Hexadecimal digits with a space after each word of 4 bytes.
pub fn hex_words(bytes: &[u8]) -> String {
    let words: Vec<String> = bytes.chunks(4).map(hex).collect();
    words.join(" ")
}

//! What a line is made of: numbers, and bytes in hex.

/// A decimal number of one to twenty digits, up to `most`.
pub fn number(word: &str, most: u64) -> Option<u64> {
    if word.is_empty() || word.len() > 20 || !word.bytes().all(|b| b.is_ascii_digit()) {
        return None;
    }
    // Twenty digits can pass 64 bits.
    word.parse::<u64>().ok().filter(|&n| n <= most)
}

/// A number of 32 bits with a sign. A minus sign stands directly before the digits; `-0` is 0.
pub fn signed(word: &str) -> Option<i32> {
    let (digits, sign) = match word.strip_prefix('-') {
        Some(digits) => (digits, -1),
        None => (word, 1),
    };
    let most = i32::MIN.unsigned_abs();
    let n = number(digits, most.into())? as i64;
    // The greatest is one less than that.
    i32::try_from(sign * n).ok()
}

pub fn id(word: &str) -> Option<u16> {
    number(word, u16::MAX.into()).map(|n| n as u16)
}

/// The room of a writer's buffer.
pub fn room(word: &str) -> Option<usize> {
    number(word, 70_000).map(|n| n as usize)
}

/// To the letter: `01` is none.
pub fn flag(word: &str) -> Option<bool> {
    match word {
        "0" => Some(false),
        "1" => Some(true),
        _ => None,
    }
}

/// Lower-case hex, two digits a byte; `-` is no bytes.
pub fn bytes(word: &str) -> Option<Vec<u8>> {
    if word == "-" {
        return Some(Vec::new());
    }
    if word.is_empty() || !word.len().is_multiple_of(2) {
        return None;
    }
    let digit = |c: u8| match c {
        b'0'..=b'9' => Some(c - b'0'),
        b'a'..=b'f' => Some(c - b'a' + 10),
        _ => None,
    };
    word.as_bytes()
        .chunks(2)
        .map(|two| Some(digit(two[0])? * 16 + digit(two[1])?))
        .collect()
}

pub fn hex(bytes: &[u8]) -> String {
    if bytes.is_empty() {
        return "-".into();
    }
    const DIGITS: &[u8; 16] = b"0123456789abcdef";
    let mut text = String::with_capacity(bytes.len() * 2);
    for byte in bytes {
        text.push(DIGITS[usize::from(byte >> 4)].into());
        text.push(DIGITS[usize::from(byte & 15)].into());
    }
    text
}

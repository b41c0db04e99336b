//! The length that a request's parameters state for a body, and how many bytes were shown against it.

use crate::answer::{Stream, Word};
use crate::pairs::Pairs;

/// The most digits of a length. More of them state nothing, not even zeros before a small number.
const DIGITS: usize = 10;
/// One less than the greatest count. A count that is full may stand for more bytes, so no length may equal it.
const GREATEST: u64 = u32::MAX as u64 - 1;

/// The name under which the length of a body is stated.
pub fn name_of(stream: Stream) -> &'static [u8] {
    match stream {
        Stream::Stdin => b"CONTENT_LENGTH",
        Stream::Data => b"FCGI_DATA_LENGTH",
    }
}

/// The length that a value states: decimal digits and nothing else.
pub fn stated_by(value: &[u8]) -> Option<u32> {
    if value.is_empty() || value.len() > DIGITS {
        return None;
    }
    let mut number = 0;
    for byte in value {
        if !byte.is_ascii_digit() {
            return None;
        }
        // Ten digits pass 32 bits and not 64.
        number = number * 10 + u64::from(byte - b'0');
    }
    (number <= GREATEST).then_some(number as u32)
}

/// The length that a list states for a body. The first pair of that name decides, whatever its value is; those of a
/// list that was damaged end before the malformed one.
pub fn stated_length(list: &[u8], stream: Stream) -> Option<u32> {
    let name = name_of(stream);
    let pair = Pairs::new(list).find(|pair| pair.name(list) == name)?;
    stated_by(pair.value(list))
}

/// What the end of a body says.
pub fn word_for(shown: u32, list: &[u8], stream: Stream) -> Word {
    match stated_length(list, stream) {
        None => Word::Unstated,
        Some(stated) if shown < stated => Word::Short,
        Some(stated) if shown == stated => Word::Exact,
        Some(_) => Word::Over,
    }
}

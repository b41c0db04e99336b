//! Bytes as the case files write them: hex digits and quoted texts.

use crate::console::words::{bytes as hex_digits, hex};

/// The words of a line, with spaces between them. A quoted text is part of its word, its spaces too.
pub fn words(line: &str) -> Result<Vec<&str>, String> {
    let (mut words, mut begun, mut quoted) = (Vec::new(), None, false);
    for (i, c) in line.char_indices() {
        quoted ^= c == '"';
        if c == ' ' && !quoted {
            words.extend(begun.take().map(|from| &line[from..i]));
        } else if begun.is_none() {
            begun = Some(i);
        }
    }
    if quoted {
        return Err("a quoted text has no end".into());
    }
    words.extend(begun.map(|from| &line[from..]));
    Ok(words)
}

/// A line of which each word that has a quoted text is written in hex.
pub fn plain(words: &[&str]) -> Result<String, String> {
    let mut texts = Vec::new();
    for word in words {
        texts.push(if word.contains('"') {
            hex(&bytes(word)?)
        } else {
            (*word).into()
        });
    }
    Ok(texts.join(" "))
}

/// The bytes of several parts, one behind the other.
pub fn joined(parts: &[&str]) -> Result<Vec<u8>, String> {
    let mut all = Vec::new();
    for part in parts {
        all.extend(bytes(part)?);
    }
    Ok(all)
}

/// The bytes of a part: pairs of hex digits and quoted texts without spaces between them; `-` for none.
pub fn bytes(part: &str) -> Result<Vec<u8>, String> {
    let mut all = Vec::new();
    // Outside quotes and inside them, in turn.
    for (i, piece) in part.split('"').enumerate() {
        if i % 2 == 1 {
            all.extend(text_bytes(piece)?);
        } else if !piece.is_empty() {
            let digits = hex_digits(piece).filter(|_| piece != "-" || part == "-");
            all.extend(digits.ok_or_else(|| {
                format!("`{piece}`: bytes are lower-case hex, two digits each, or a text in quotes")
            })?);
        }
    }
    Ok(all)
}

/// What stands between quotes: `\hh` is a byte in hex, `\{n}B` is n times the byte B.
fn text_bytes(text: &str) -> Result<Vec<u8>, String> {
    let (mut all, mut rest) = (Vec::new(), text);
    while !rest.is_empty() {
        let (times, behind) = match rest.strip_prefix("\\{") {
            Some(behind) => {
                let (digits, behind) = behind
                    .split_once('}')
                    .ok_or("a number of times has no `}`")?;
                let times = digits.parse().ok().filter(|&n: &usize| n <= 70_000);
                (
                    times.ok_or_else(|| format!("`{digits}` is no number of times"))?,
                    behind,
                )
            }
            None => (1, rest),
        };
        let (byte, behind) = one_byte(behind)?;
        all.extend(std::iter::repeat_n(byte, times));
        rest = behind;
    }
    Ok(all)
}

/// The first byte of a text, and what is left.
fn one_byte(text: &str) -> Result<(u8, &str), String> {
    let first = text.chars().next().ok_or("a byte is missing at the end")?;
    match first {
        '\\' => text
            .get(1..3)
            .and_then(hex_digits)
            .map(|byte| (byte[0], &text[3..]))
            .ok_or_else(|| r"behind `\` come two hex digits in lower case".into()),
        ' '..='~' => Ok((first as u8, &text[1..])),
        _ => Err(format!(
            r"`{first}` cannot stand in a text: write its bytes as \hh"
        )),
    }
}

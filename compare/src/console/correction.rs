//! The command of ice correction: cards as bytes, the answer as the bits of a float.

use super::words::{bytes, hex, number, signed};
use crate::correction::{correct, Calibration, Card, Curve};

/// What the words of the command say. None where they are not to the letter.
pub fn asked(words: &[&str]) -> Option<(Calibration, i32, u32)> {
    let ["correct", thawed, frozen, tenths, raw] = *words else {
        return None;
    };
    let calibration = Calibration {
        thawed: card(&bytes(thawed)?)?,
        frozen: card(&bytes(frozen)?)?,
    };
    let raw = number(raw, u32::MAX.into())? as u32;
    Some((calibration, signed(tenths)?, raw))
}

/// None for words that are no command of these.
pub(super) fn correction_command(words: &[&str]) -> Option<String> {
    let (calibration, tenths, raw) = asked(words)?;
    Some(match correct(&calibration, tenths, raw) {
        Ok(count) => format!("count {}", hex(&count.to_be_bytes())),
        Err(refusal) => format!("refused {}", refusal as u8),
    })
}

/// The first byte says which curve it is, and so how many floats follow; any float is taken. The line has no serial.
fn card(bytes: &[u8]) -> Option<Card> {
    let (&kind, floats) = bytes.split_first()?;
    let curve = match (kind, floats.len()) {
        (0, 8) => Curve::Thawed {
            offset: float(floats)?,
        },
        (1, 16) => Curve::Frozen {
            slope: float(&floats[..8])?,
            offset: float(&floats[8..])?,
        },
        _ => return None,
    };
    Some(Card { serial: 0, curve })
}

/// The sign and the exponent come first.
fn float(bytes: &[u8]) -> Option<f64> {
    bytes.try_into().ok().map(f64::from_be_bytes)
}

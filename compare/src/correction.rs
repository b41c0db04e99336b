//! Ice correction: a raw count put right by one of two calibration cards, the frozen one below zero and the thawed one
//! from zero up.
//!
//! Only the operators of `f64` are used. Rust rounds the result of each once, to the nearest and at a tie to the even,
//! and never joins two of them into one (`f64::mul_add` would), so the order in which they stand is that of the rules.

use crate::readings::{COLDEST, WARMEST};

/// The largest raw count that a head gives.
pub const MOST_RAW: u32 = 65_535;
/// A float of a card is at most so far from zero.
pub const MOST: f64 = 1_000.0;

#[derive(Clone, Copy, Debug, PartialEq)]
pub enum Curve {
    Thawed { offset: f64 },
    Frozen { slope: f64, offset: f64 },
}

#[derive(Clone, Copy, Debug, PartialEq)]
pub struct Card {
    /// It says which card this is, and no answer depends on it.
    pub serial: u32,
    pub curve: Curve,
}

/// The two cards of a station. Whether each is of the kind that its place asks for is looked at in each call.
#[derive(Clone, Copy, Debug, PartialEq)]
pub struct Calibration {
    pub thawed: Card,
    pub frozen: Card,
}

/// Why a raw count is not corrected. Where more than one applies, the lowest number is given.
#[derive(Clone, Copy, Debug, PartialEq, Eq)]
#[repr(u8)]
pub enum CorrectionRefusal {
    Raw = 41,
    Temperature = 42,
    /// A card of the wrong kind.
    Kind = 43,
    /// A card with a float that is not finite, or too far from zero.
    Float = 44,
}

/// The corrected count. Both cards are looked at, also the one that the temperature does not ask for: first the kinds,
/// then the floats.
pub fn correct(calibration: &Calibration, tenths: i32, raw: u32) -> Result<f64, CorrectionRefusal> {
    if raw > MOST_RAW {
        return Err(CorrectionRefusal::Raw);
    }
    if !(COLDEST..=WARMEST).contains(&tenths) {
        return Err(CorrectionRefusal::Temperature);
    }
    let curves = (calibration.thawed.curve, calibration.frozen.curve);
    let (Curve::Thawed { offset: thawed }, Curve::Frozen { slope, offset }) = curves else {
        return Err(CorrectionRefusal::Kind);
    };
    if ![thawed, slope, offset].into_iter().all(is_allowed) {
        return Err(CorrectionRefusal::Float);
    }
    let count = f64::from(raw);
    // The whole number decides, not the degrees.
    if tenths < 0 {
        let product = slope * degrees(tenths);
        let sum = count + product;
        Ok(sum + offset)
    } else {
        Ok(count + thawed)
    }
}

/// Divided by 10 and not multiplied by 0.1, which is no float and would be rounded too.
fn degrees(tenths: i32) -> f64 {
    f64::from(tenths) / 10.0
}

/// A NaN lies in no range, and infinities lie outside this one.
fn is_allowed(float: f64) -> bool {
    (-MOST..=MOST).contains(&float)
}

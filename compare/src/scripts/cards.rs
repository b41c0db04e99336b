//! Raw counts to be corrected: by cards that are right, with floats for which the order and the rounding of the
//! operations show; and by cards, temperatures and counts that are refused, for one reason or for several at once.

use crate::correction::{Calibration, Card, Curve, MOST, MOST_RAW};
use crate::random::Random;
use crate::readings::{COLDEST, WARMEST};

/// The floats of a calibration, of which each may be wrong for itself.
#[derive(Clone, Copy)]
pub struct Floats {
    thawed: f64,
    slope: f64,
    frozen: f64,
}

/// The smallest float above zero.
const LEAST: f64 = f64::from_bits(1);

/// Floats that a card may have, at the edges: either sign of each is tried.
const ALLOWED: [f64; 12] = [
    0.0,
    MOST,
    MOST.next_down(),
    LEAST,
    f64::from_bits(3),
    f64::MIN_POSITIVE.next_down(),
    f64::MIN_POSITIVE,
    f64::EPSILON,
    1.0,
    0.5,
    0.1,
    512.0,
];

/// Floats that a card must not have, of either sign.
const REFUSED: [f64; 8] = [
    MOST.next_up(),
    1_000.000_1,
    1_001.0,
    1_024.0,
    65_535.0,
    1e300,
    f64::MAX,
    f64::INFINITY,
];

/// What a NaN has behind its exponent: the quiet bit alone, others alone, all.
const PAYLOADS: [u64; 5] = [
    0x8_0000_0000_0000,
    1,
    0x4_0000_0000_0000,
    0x8_0000_0000_0001,
    0xf_ffff_ffff_ffff,
];

const TENTHS: [i32; 12] = [-600, -599, -100, -10, -9, -2, -1, 0, 1, 9, 399, 400];
const TENTHS_REFUSED: [i32; 8] = [-601, 401, i32::MIN, i32::MAX, 600, -65_536, 65_535, -6_000];
/// Below zero, and a power of two in degrees: a product with it is not rounded.
const EXACT: [i32; 7] = [-5, -10, -20, -40, -80, -160, -320];

const RAWS: [u32; 10] = [0, 1, 2, 255, 256, 32_767, 32_768, 40_000, 65_534, 65_535];
const RAWS_REFUSED: [u32; 8] = [
    65_536,
    65_537,
    131_071,
    0x1_8000,
    0x7fff_ffff,
    0x8000_0000,
    u32::MAX - 1,
    u32::MAX,
];

fn signed(random: &mut Random, float: f64) -> f64 {
    if random.one_in(2) {
        -float
    } else {
        float
    }
}

/// Any bits behind an exponent within these limits.
fn of_exponent(random: &mut Random, low: usize, high: usize) -> f64 {
    let exponent = random.within(low, high) as u64;
    let float = f64::from_bits(exponent << 52 | random.draw() >> 12);
    signed(random, float)
}

/// From -1,000 to 1,000.
fn allowed(random: &mut Random) -> f64 {
    match random.below(10) {
        0 | 1 => {
            let float = random.pick(&ALLOWED);
            signed(random, float)
        }
        2 => of_exponent(random, 0, 1_031),
        // Of a size at which all bits of the sum count.
        3 | 4 => of_exponent(random, 1_000, 1_031),
        5 => random.within(0, 16_000) as f64 / 8.0 - MOST,
        6 => random.within(0, 200_000) as f64 / 100.0 - MOST,
        _ => random.draw() as i64 as f64 / (1_u64 << 63) as f64 * MOST,
    }
}

/// Not finite, or too far from zero.
fn refused(random: &mut Random) -> f64 {
    let float = match random.below(8) {
        0 => f64::from_bits(0x7ff << 52 | random.pick(&PAYLOADS)),
        1 => f64::from_bits(0x7ff << 52 | random.draw() >> 12 | 1),
        2 => f64::INFINITY,
        3 => MOST.next_up(),
        4 => of_exponent(random, 1_033, 2_046),
        _ => random.pick(&REFUSED),
    };
    signed(random, float)
}

fn any_tenths(random: &mut Random) -> i32 {
    match random.below(8) {
        0 | 1 => random.pick(&TENTHS),
        // More often below zero, where there is more to be wrong.
        2..=5 => random.within(0, 600) as i32 + COLDEST,
        _ => random.within(0, (WARMEST - COLDEST) as usize) as i32 + COLDEST,
    }
}

fn any_raw(random: &mut Random) -> u32 {
    match random.below(6) {
        0 => random.pick(&RAWS),
        1 => random.below(300) as u32,
        _ => random.below(u64::from(MOST_RAW) + 1) as u32,
    }
}

/// Raw counts and floats that are not refused. Those of one sort show what those of the others hide.
pub fn good(random: &mut Random) -> (Floats, i32, u32) {
    let floats = Floats {
        thawed: allowed(random),
        slope: allowed(random),
        frozen: allowed(random),
    };
    let (tenths, raw) = (any_tenths(random), any_raw(random));
    match random.below(8) {
        0 => zeros(random, tenths, raw),
        1 => tiny(random, floats, tenths),
        2 => cancelled(random, floats, raw),
        3 => tie(random, floats, tenths, raw),
        // The product alone is the answer.
        4 => (
            Floats {
                frozen: 0.0,
                ..floats
            },
            any_tenths(random).min(-1),
            0,
        ),
        _ => (floats, tenths, raw),
    }
}

/// Zeros of any sign, or all but one of them.
fn zeros(random: &mut Random, tenths: i32, raw: u32) -> (Floats, i32, u32) {
    let mut zero = || signed(random, 0.0);
    let mut floats = Floats {
        thawed: zero(),
        slope: zero(),
        frozen: zero(),
    };
    if random.one_in(4) {
        floats.slope = allowed(random);
    }
    let raw = random.pick(&[0, 0, MOST_RAW, raw]);
    (floats, tenths, raw)
}

/// Beside no count the smallest floats are not lost.
fn tiny(random: &mut Random, floats: Floats, tenths: i32) -> (Floats, i32, u32) {
    let mut least = || match random.below(4) {
        0 => signed(random, 0.0),
        1 => {
            let few = f64::from_bits(random.within(1, 9) as u64);
            signed(random, few)
        }
        2 => of_exponent(random, 0, 0),
        _ => of_exponent(random, 0, 60),
    };
    let floats = Floats {
        thawed: least(),
        slope: least(),
        frozen: if floats.frozen > 0.0 { 0.0 } else { least() },
    };
    (floats, tenths, 0)
}

/// The product takes away almost all of the raw count, so that its last bits are those of the answer.
fn cancelled(random: &mut Random, floats: Floats, raw: u32) -> (Floats, i32, u32) {
    let tenths = -(random.within(1, 600) as i32);
    let raw = raw % (100 * tenths.unsigned_abs());
    let slope = (f64::from(raw) * -10.0 / f64::from(tenths)).min(MOST);
    let frozen = match random.below(3) {
        0 => signed(random, 0.0),
        1 => of_exponent(random, 950, 1_000),
        _ => floats.frozen,
    };
    let floats = Floats {
        slope,
        frozen,
        ..floats
    };
    (floats, tenths, raw)
}

/// A sum that lies in the middle between two floats.
fn tie(random: &mut Random, floats: Floats, tenths: i32, raw: u32) -> (Floats, i32, u32) {
    let raw = raw.max(1);
    // Half of what the last bit of the raw count stands for, an odd number of times.
    let half = f64::from(1_u32 << raw.ilog2()) * f64::EPSILON / 2.0;
    let odd = (2 * random.below(1 << 20) + 1) as f64;
    let term = signed(random, odd * half);
    let zero = signed(random, 0.0);
    let (floats, tenths) = match random.below(3) {
        0 => {
            let floats = Floats {
                thawed: term,
                ..floats
            };
            (floats, tenths.abs().min(WARMEST))
        }
        1 => {
            let floats = Floats {
                slope: zero,
                frozen: term,
                ..floats
            };
            (floats, tenths.min(-1))
        }
        _ => {
            let tenths = random.pick(&EXACT);
            let floats = Floats {
                slope: term / (f64::from(tenths) / 10.0),
                frozen: zero,
                ..floats
            };
            (floats, tenths)
        }
    };
    (floats, tenths, raw)
}

/// The cards in their places, or of the wrong kind: one of them, both, or in each other's place.
pub fn cards(random: &mut Random, floats: Floats, wrong: bool) -> Calibration {
    let Floats {
        thawed,
        slope,
        frozen,
    } = floats;
    let of = |curve| Card { serial: 0, curve };
    let by_offset = |offset| of(Curve::Thawed { offset });
    let by_slope = |offset| of(Curve::Frozen { slope, offset });
    let which = if wrong { random.within(1, 3) } else { 0 };
    let (thawed, frozen) = match which {
        0 => (by_offset(thawed), by_slope(frozen)),
        1 => (by_offset(thawed), by_offset(frozen)),
        2 => (by_slope(thawed), by_slope(frozen)),
        _ => (by_slope(frozen), by_offset(thawed)),
    };
    Calibration { thawed, frozen }
}

/// Half of them are not refused; the others are for one cause, for two that follow each other, or for any of the four.
pub fn any_correction(random: &mut Random) -> (Calibration, i32, u32) {
    let (mut floats, mut tenths, mut raw) = good(random);
    let causes = match random.below(8) {
        // There are more ways for a float to be wrong than for the others.
        0 | 1 => random.pick(&[1, 2, 4, 8, 8, 8]),
        // Two that follow each other, so that their order shows: most often those of the cards.
        2 => random.pick(&[3, 6, 12, 12, 12]),
        3 => random.below(16),
        _ => 0,
    };
    if causes & 1 != 0 {
        raw = random.pick(&RAWS_REFUSED);
        if random.one_in(3) {
            raw = (random.draw() as u32 >> random.below(16)).max(MOST_RAW + 1);
        }
    }
    if causes & 2 != 0 {
        tenths = random.pick(&TENTHS_REFUSED);
    }
    if causes & 8 != 0 {
        let which = random.pick(&[1, 2, 4, 1, 2, 4, 3, 5, 6, 7]);
        let all = [&mut floats.thawed, &mut floats.slope, &mut floats.frozen];
        for (i, float) in all.into_iter().enumerate() {
            if which >> i & 1 != 0 {
                *float = refused(random);
            }
        }
    }
    (cards(random, floats, causes & 4 != 0), tenths, raw)
}

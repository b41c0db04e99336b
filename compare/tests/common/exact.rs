//! Floats by whole numbers alone: a float is a number of 53 bits times a power of two, and sums and products of two are
//! calculated exactly and then rounded, to the nearest and at a tie to the even. No operator of `f64` is used.

/// The power of two that the last bit of the smallest floats stands for.
const LEAST: i32 = -1074;
/// Bits kept below those of the larger term of a sum: more than a rounding looks at.
const BELOW: u32 = 70;

/// A finite float: its sign, a number, and the power of two by which it is multiplied.
#[derive(Clone, Copy, Debug)]
pub struct Exact {
    minus: bool,
    number: u128,
    power: i32,
}

impl Exact {
    pub fn of_bits(bits: u64) -> Exact {
        let (exponent, fraction) = (bits >> 52 & 0x7ff, bits & ((1 << 52) - 1));
        assert!(exponent < 0x7ff, "it is finite");
        // The smallest floats lack the leading one, and share the power of the next larger ones.
        let leading = u64::from(exponent > 0) << 52;
        Exact {
            minus: bits >> 63 == 1,
            number: (leading | fraction).into(),
            power: exponent.max(1) as i32 - 1 + LEAST,
        }
    }

    pub fn of_whole(n: i32) -> Exact {
        Exact {
            minus: n < 0,
            number: n.unsigned_abs().into(),
            power: 0,
        }
    }

    /// The bits of the float that is nearest. Where `more` is set, a little is missing of the number: less than its
    /// last bit stands for, and not nothing.
    fn rounded(self, more: bool) -> u64 {
        let sign = u64::from(self.minus) << 63;
        if self.number == 0 {
            return sign;
        }
        let bits = 128 - self.number.leading_zeros() as i32;
        // The last bit that is kept: the 53rd from the first, if that is not too small.
        let power = (self.power + bits - 53).max(LEAST);
        let shift = power - self.power;
        let kept = if shift <= 0 {
            assert!(!more, "there are bits enough to round");
            self.number << -shift
        } else if shift > 127 {
            0
        } else {
            let (kept, rest) = (self.number >> shift, self.number & ((1 << shift) - 1));
            let half = 1 << (shift - 1);
            let up = rest > half || rest == half && (more || kept & 1 == 1);
            kept + u128::from(up)
        };
        // A number that was rounded up to 54 bits is a power of two, and carries into the exponent by itself.
        let kept = u64::try_from(kept).expect("it has 54 bits at most");
        let exponent = (power - LEAST) as u64;
        if kept >> 52 == 0 {
            assert_eq!(power, LEAST);
            sign | kept
        } else {
            sign | ((exponent << 52) + kept)
        }
    }

    pub fn divided_by(self, by: u128) -> u64 {
        // With so many bits more the quotient has far more than 53.
        let number = self.number << BELOW;
        let quotient = Exact {
            number: number / by,
            power: self.power - BELOW as i32,
            ..self
        };
        quotient.rounded(!number.is_multiple_of(by))
    }

    pub fn times(self, other: Exact) -> u64 {
        Exact {
            minus: self.minus != other.minus,
            number: self.number * other.number,
            power: self.power + other.power,
        }
        .rounded(false)
    }

    pub fn plus(self, other: Exact) -> u64 {
        if self.number == 0 && other.number == 0 {
            return u64::from(self.minus && other.minus) << 63;
        }
        // A zero has no size of its own to be compared by.
        let zero_first = self.number == 0 || other.number != 0 && self.power < other.power;
        let (large, small) = if zero_first {
            (other, self)
        } else {
            (self, other)
        };
        let power = large.power - BELOW as i32;
        let mut moved = 0;
        if small.number != 0 {
            let down = power - small.power;
            moved = match u32::try_from(down) {
                Err(_) => small.number << down.unsigned_abs(),
                // What falls off is kept as one odd bit, far below those that are looked at.
                Ok(0..=127) => {
                    let kept = small.number >> down;
                    kept | u128::from(kept << down != small.number)
                }
                Ok(_) => 1,
            };
        }
        let signed = |minus, number: u128| {
            if minus {
                -(number as i128)
            } else {
                number as i128
            }
        };
        let sum = signed(large.minus, large.number << BELOW) + signed(small.minus, moved);
        if sum == 0 {
            return 0;
        }
        Exact {
            minus: sum < 0,
            number: sum.unsigned_abs(),
            power,
        }
        .rounded(false)
    }
}

/// The bits of the corrected count, for a calibration and a reading that are not refused.
pub fn frozen(slope: u64, offset: u64, tenths: i32, raw: u32) -> u64 {
    let degrees = Exact::of_whole(tenths).divided_by(10);
    let product = Exact::of_bits(slope).times(Exact::of_bits(degrees));
    let sum = Exact::of_whole(raw as i32).plus(Exact::of_bits(product));
    Exact::of_bits(sum).plus(Exact::of_bits(offset))
}

pub fn thawed(offset: u64, raw: u32) -> u64 {
    Exact::of_whole(raw as i32).plus(Exact::of_bits(offset))
}

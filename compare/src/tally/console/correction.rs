//! What a corrected count shows beside its bits: which card it is by, and what it would be if it were calculated
//! otherwise.

use crate::console::correction::asked;
use crate::correction::{Curve, MOST};

/// Kinds that a complete comparison has to meet; the refusals are asked for with those of the other calls.
pub const WANTED: [&str; 11] = [
    "correct: count frozen",
    "correct: count thawed",
    "correct: not as fused",
    "correct: not as the offset first",
    "correct: not as by a tenth",
    "correct: below the least normal float",
    "correct: by a float at the limit",
    "correct: by a card of -0",
    "correct: +0 by -0, frozen",
    "correct: +0 by -0, thawed",
    "correct: refused 44 by the other card",
];

/// One line is of several kinds. Of a line that is answered by `what` there are none.
pub fn kinds(line: &[u8], answer: &str) -> Vec<&'static str> {
    let text = std::str::from_utf8(line).unwrap_or_default();
    let Some((cards, tenths, raw)) = asked(&text.split(' ').collect::<Vec<_>>()) else {
        return Vec::new();
    };
    let (Curve::Thawed { offset: thawed }, Curve::Frozen { slope, offset }) =
        (cards.thawed.curve, cards.frozen.curve)
    else {
        return Vec::new();
    };
    let frozen = tenths < 0;
    // The other card's floats are left out.
    let used = if frozen {
        vec![slope, offset]
    } else {
        vec![thawed]
    };
    let mut kinds = Vec::new();
    let mut note = |kind, shown| {
        if shown {
            kinds.push(kind);
        }
    };
    let Some(bits) = answer.strip_prefix("count ") else {
        let allowed = used.iter().all(|float| float.abs() <= MOST);
        note(WANTED[10], answer == "refused 44" && allowed);
        return kinds;
    };
    note(WANTED[0], frozen);
    note(WANTED[1], !frozen);
    if frozen {
        let (count, degrees) = (f64::from(raw), f64::from(tenths) / 10.0);
        let by_a_tenth = f64::from(tenths) * 0.1;
        let other = |count: f64| hex(count) != bits;
        note(WANTED[2], other(slope.mul_add(degrees, count) + offset));
        note(WANTED[3], other(count + offset + slope * degrees));
        note(WANTED[4], other(count + slope * by_a_tenth + offset));
    }
    let count = f64::from_bits(u64::from_str_radix(bits, 16).unwrap_or_default());
    let below_zero = |float: &f64| *float == 0.0 && float.is_sign_negative();
    note(WANTED[5], count.is_subnormal());
    note(WANTED[6], used.iter().any(|float| float.abs() == MOST));
    note(WANTED[7], used.iter().any(below_zero));
    let zero = bits == hex(0.0) && used.iter().all(below_zero);
    note(WANTED[8], zero && frozen);
    note(WANTED[9], zero && !frozen);
    kinds
}

fn hex(float: f64) -> String {
    format!("{:016x}", float.to_bits())
}

#[cfg(test)]
mod tests {
    use super::*;

    #[test]
    fn kinds_of_lines() {
        let zero = "008000000000000000";
        let zeros = "0180000000000000008000000000000000";
        let nan = "00fff0000000000001";
        let line = |first: &str, second: &str, tenths: i32| {
            format!("correct {first} {second} {tenths} 0").into_bytes()
        };
        let plus = "count 0000000000000000";
        assert_eq!(
            kinds(&line(zero, zeros, 0), plus),
            [WANTED[1], WANTED[7], WANTED[9]]
        );
        assert_eq!(
            kinds(&line(zero, zeros, -1), plus),
            [WANTED[0], WANTED[7], WANTED[8]]
        );
        assert_eq!(kinds(&line(nan, zeros, -1), "refused 44"), [WANTED[10]]);
        assert!(kinds(&line(nan, zeros, 0), "refused 44").is_empty());
        assert!(kinds(&line(zeros, zeros, 0), "refused 43").is_empty());
        assert!(kinds(b"correct 00 01 0 0", "what").is_empty());
        // By 0.1 it would be 4 in the last place and not 3.
        let (third, slope) = ("bfd3333333333333", "013ff00000000000000000000000000000");
        let told = kinds(&line(zero, slope, -3), &format!("count {third}"));
        assert_eq!(told, [WANTED[0], WANTED[4]]);
    }
}

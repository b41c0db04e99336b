//! Ice correction: the limits, the refusals and their order, zeros of either sign, and the bits of the answer held to
//! whole numbers.

#[path = "common/exact.rs"]
mod exact;

use compare::correction::CorrectionRefusal::{self, Float, Kind, Raw, Temperature};
use compare::correction::{correct, Calibration, Card, Curve};
use compare::random::Random;
use compare::scripts::correction;

fn thawed(offset: f64) -> Card {
    let curve = Curve::Thawed { offset };
    Card { serial: 1, curve }
}

fn frozen(slope: f64, offset: f64) -> Card {
    let curve = Curve::Frozen { slope, offset };
    Card { serial: 2, curve }
}

/// The answer in bits, since zeros of both signs are equal as floats.
fn told(cards: (Card, Card), tenths: i32, raw: u32) -> Result<u64, CorrectionRefusal> {
    let (thawed, frozen) = cards;
    correct(&Calibration { thawed, frozen }, tenths, raw).map(f64::to_bits)
}

fn bits(float: f64) -> Result<u64, CorrectionRefusal> {
    Ok(float.to_bits())
}

/// Cards that tell by the answer which of them was used.
fn plain() -> (Card, Card) {
    (thawed(1.0), frozen(0.0, 2.0))
}

/// A float of each kind that a card must not have.
fn refused_floats() -> Vec<f64> {
    let mut floats = vec![f64::INFINITY, 1_000_f64.next_up(), 1_001.0, f64::MAX];
    for payload in [1, 0xf_ffff_ffff_ffff, 1 << 51, 1 << 50, 1 << 51 | 0x12345] {
        floats.push(f64::from_bits(0x7ff << 52 | payload));
    }
    floats.iter().flat_map(|&float| [float, -float]).collect()
}

#[test]
fn the_numbers_of_refusals() {
    assert_eq!(
        [Raw, Temperature, Kind, Float].map(|refusal| refusal as u8),
        [41, 42, 43, 44]
    );
}

#[test]
fn the_worked_case() {
    let cards = (thawed(0.0), frozen(0.5, 0.0));
    assert_eq!(told(cards, -184, 12), Ok(0x4006_6666_6666_6668));
}

#[test]
fn which_card_is_used() {
    for tenths in -600..=400 {
        let added = if tenths < 0 { 2.0 } else { 1.0 };
        assert_eq!(told(plain(), tenths, 5), bits(5.0 + added), "{tenths}");
    }
}

#[test]
fn temperatures_out_of_range() {
    for tenths in [-601, 401, -602, 600, i32::MIN, i32::MAX, 65_536, -65_536] {
        assert_eq!(told(plain(), tenths, 5), Err(Temperature), "{tenths}");
    }
}

#[test]
fn every_raw_count_and_those_past_the_limit() {
    for raw in 0..=65_535 {
        assert_eq!(told(plain(), 0, raw), bits(f64::from(raw) + 1.0));
        assert_eq!(told(plain(), -1, raw), bits(f64::from(raw) + 2.0));
    }
    for raw in [65_536, 65_537, 131_071, 1 << 31, u32::MAX] {
        for tenths in [0, -1, 401, -601] {
            assert_eq!(told(plain(), tenths, raw), Err(Raw));
        }
    }
}

#[test]
fn zeros_of_either_sign_keep_the_raw_count() {
    const ZEROS: [f64; 2] = [0.0, -0.0];
    for (a, b, c) in (0..8).map(|i| (ZEROS[i & 1], ZEROS[i >> 1 & 1], ZEROS[i >> 2])) {
        let cards = (thawed(a), frozen(b, c));
        for tenths in -600..=400 {
            for raw in [0, 1, 40_000, 65_535] {
                assert_eq!(told(cards, tenths, raw), bits(f64::from(raw)));
            }
        }
        for raw in 0..=65_535 {
            assert_eq!(told(cards, -1, raw), bits(f64::from(raw)));
            assert_eq!(told(cards, 0, raw), bits(f64::from(raw)));
        }
    }
    // Where terms take each other away it is +0 too.
    assert_eq!(told((thawed(-7.0), frozen(0.0, 0.0)), 0, 7), Ok(0));
    assert_eq!(told((thawed(0.0), frozen(1.0, -0.0)), -10, 1), Ok(0));
    assert_eq!(told((thawed(0.0), frozen(-0.0, -7.0)), -10, 7), Ok(0));
}

#[test]
fn floats_at_the_limit() {
    for most in [1_000.0, 1_000_f64.next_down()] {
        for float in [most, -most] {
            assert_eq!(told((thawed(float), frozen(0.0, 0.0)), 0, 0), bits(float));
            assert_eq!(told((thawed(0.0), frozen(0.0, float)), -1, 0), bits(float));
            assert_eq!(
                told((thawed(0.0), frozen(float, 0.0)), -10, 0),
                bits(-float)
            );
        }
    }
    // The most and the least of all answers.
    let cards = |slope| (thawed(0.0), frozen(slope, -slope));
    assert_eq!(told(cards(-1_000.0), -600, 65_535), bits(126_535.0));
    assert_eq!(told(cards(1_000.0), -600, 0), bits(-61_000.0));
}

#[test]
fn floats_that_are_refused_in_each_place() {
    for float in refused_floats() {
        for tenths in [-600, -1, 0, 400] {
            // Also on the card that is not used.
            for cards in [
                (thawed(float), frozen(0.0, 0.0)),
                (thawed(0.0), frozen(float, 0.0)),
                (thawed(0.0), frozen(0.0, float)),
                (thawed(float), frozen(-float, float)),
            ] {
                assert_eq!(told(cards, tenths, 5), Err(Float), "{float}");
            }
        }
    }
}

#[test]
fn cards_of_the_wrong_kind() {
    let float = f64::NAN;
    for tenths in [-600, -1, 0, 400] {
        for cards in [
            (thawed(1.0), thawed(2.0)),
            (frozen(1.0, 2.0), frozen(3.0, 4.0)),
            (frozen(1.0, 2.0), thawed(3.0)),
            // Both kinds come before the floats of either.
            (thawed(float), thawed(0.0)),
            (thawed(0.0), thawed(float)),
            (frozen(0.0, 0.0), frozen(float, 0.0)),
            (frozen(0.0, float), frozen(0.0, 0.0)),
            (frozen(float, 0.0), thawed(float)),
        ] {
            assert_eq!(told(cards, tenths, 5), Err(Kind));
        }
    }
}

/// Each set of causes, by the lowest of them.
#[test]
fn the_lowest_number_is_given() {
    for float in refused_floats() {
        for causes in 0..16_u8 {
            let raw = if causes & 1 != 0 { 65_536 } else { 65_535 };
            let tenths = if causes & 2 != 0 { -601 } else { -600 };
            let offset = if causes & 8 != 0 { float } else { 2.0 };
            for (first, second) in [(offset, 2.0), (2.0, offset), (offset, offset)] {
                let cards = match causes & 4 {
                    0 => (thawed(first), frozen(0.0, second)),
                    _ => (frozen(0.0, first), thawed(second)),
                };
                let wanted = match causes.trailing_zeros() {
                    0 => Err(Raw),
                    1 => Err(Temperature),
                    2 => Err(Kind),
                    3 => Err(Float),
                    _ => bits(65_537.0),
                };
                assert_eq!(told(cards, tenths, raw), wanted, "{causes:04b}");
            }
        }
    }
}

#[test]
fn the_serial_number_counts_for_nothing() {
    let serials = [0, 1, 2, u32::MAX];
    for (first, second) in serials.into_iter().flat_map(|a| serials.map(|b| (a, b))) {
        let mut cards = plain();
        (cards.0.serial, cards.1.serial) = (first, second);
        assert_eq!(told(cards, 0, 5), bits(6.0));
        assert_eq!(told(cards, -1, 5), bits(7.0));
    }
}

/// Where another order or one rounding less would show. The bits are written out, not calculated.
#[test]
fn the_order_of_the_operations() {
    let half = f64::EPSILON / 2.0;
    let by = |slope, offset, tenths, raw| told((thawed(0.0), frozen(slope, offset)), tenths, raw);
    // 1 and a half of its last bit are rounded to 1; with the offset first, half of that bit would be left.
    assert_eq!(by(-half, -1.0, -10, 1), Ok(0));
    // And with the product and the offset together, a whole one.
    assert_eq!(by(-half, half, -10, 1), Ok(0x3ff0_0000_0000_0000));
    // Ten times the float of -0.1 is rounded to -1; with both operations in one, -2^-54 would be left of 1.
    assert_eq!(by(10.0, 0.0, -1, 1), Ok(0));
    assert_eq!(10_f64.mul_add(-0.1, 1.0).to_bits(), 0xbc90_0000_0000_0000);
    // -3 times 0.1 would end in 4.
    assert_eq!(by(1.0, 0.0, -3, 0), Ok(0xbfd3_3333_3333_3333));
    assert_eq!(by(0.37, -12.6, -176, 812), Ok(0x4088_c71a_9fbe_76c9));
    assert_eq!(by(0.37, 4.7, -98, 12), Ok(0x402a_25e3_53f7_ced8));
    assert_eq!(by(0.37, 0.0, -196, 0), Ok(0xc01d_020c_49ba_5e36));
}

#[test]
fn the_smallest_floats() {
    let least = f64::from_bits;
    let by = |slope: f64, tenths| told((thawed(0.0), frozen(slope, 0.0)), tenths, 0);
    for number in [1, 0xf_ffff_ffff_ffff, 0x10_0000_0000_0000] {
        let cards = (thawed(least(number)), frozen(0.0, 0.0));
        assert_eq!(told(cards, 0, 0), Ok(number));
        assert_eq!(told(cards, 0, 1), bits(1.0));
    }
    // 1.5 of the smallest goes to 2, and 0.5 to 0, which is -0 first and then +0.
    assert_eq!(by(least(3), -5), Ok(0x8000_0000_0000_0002));
    assert_eq!(by(-least(3), -5), Ok(2));
    assert_eq!(by(least(1), -5), Ok(0));
    assert_eq!(by(least(1), -6), Ok(0x8000_0000_0000_0001));
}

/// The exact answer, for cards that are not refused.
fn exactly(cards: &Calibration, tenths: i32, raw: u32) -> Option<u64> {
    match (cards.thawed.curve, cards.frozen.curve) {
        (_, Curve::Frozen { slope, offset }) if tenths < 0 => {
            let (slope, offset) = (slope.to_bits(), offset.to_bits());
            Some(exact::frozen(slope, offset, tenths, raw))
        }
        (Curve::Thawed { offset }, _) if tenths >= 0 => Some(exact::thawed(offset.to_bits(), raw)),
        _ => None,
    }
}

/// The cards of the scripts, with floats of every size, at ties and where terms take each other away.
#[test]
fn a_million_cards_by_whole_numbers() {
    let (mut corrected, mut unlike) = ([0; 2], [0; 2]);
    let mut refused = [0; 4];
    for seed in 0..1_000_000 {
        let (cards, tenths, raw) = correction(seed);
        match correct(&cards, tenths, raw) {
            Ok(count) => {
                let wanted = exactly(&cards, tenths, raw);
                assert_eq!(Some(count.to_bits()), wanted, "{cards:?} {tenths} {raw}");
                assert!(count.abs() <= 126_535.0, "it is finite");
                corrected[usize::from(tenths < 0)] += 1;
                if let Curve::Frozen { slope, offset } = cards.frozen.curve {
                    let (raw, degrees) = (f64::from(raw), f64::from(tenths) / 10.0);
                    let others = [
                        slope.mul_add(degrees, raw) + offset,
                        raw + offset + slope * degrees,
                    ];
                    for (n, other) in unlike.iter_mut().zip(others) {
                        *n += usize::from(tenths < 0 && other.to_bits() != count.to_bits());
                    }
                }
            }
            Err(refusal) => refused[refusal as usize - 41] += 1,
        }
    }
    // Each answer comes often enough, and so do those that another way of calculating would change.
    assert!(corrected.iter().all(|&n| n > 50_000), "{corrected:?}");
    assert!(unlike.iter().all(|&n| n > 20_000), "{unlike:?}");
    assert!(refused.iter().all(|&n| n > 50_000), "{refused:?}");
}

/// Floats that are not chosen: any bits below 1,000, at every temperature.
#[test]
fn any_bits_by_whole_numbers() {
    let random = &mut Random::new(7);
    for i in 0..500_000 {
        let mut float =
            || f64::from_bits((random.draw() % 0x408f_4000_0000_0001) | (random.draw() << 63));
        let (offset, slope) = (float(), float());
        let (thawed, frozen) = (thawed(offset), frozen(slope, float()));
        let cards = Calibration { thawed, frozen };
        let (tenths, raw) = (i % 1_001 - 600, random.below(65_536) as u32);
        let told = correct(&cards, tenths, raw).map(f64::to_bits);
        assert_eq!(
            told.ok(),
            exactly(&cards, tenths, raw),
            "{cards:?} {tenths} {raw}"
        );
    }
}

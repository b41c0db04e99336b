//! The proved correction, linked as a library, against the ordinary one, bit for bit.
//!
//!     corrections CARDS
//!
//! So many random cards, as the scripts have them, and then floats, temperatures and raw counts at their edges, each
//! with each. Exit status 1 where an answer differs, or where the library was not there when this was built.

use compare::correction::{correct, Calibration, Card, Curve};
use compare::random::Random;
use compare::scripts::correction;
use std::process::ExitCode;

/// The library's call. A kind of 0 is a thawed curve, whose slope counts for nothing; any other is a frozen one.
/// Answers 0 and puts the count at the start of `answer`, if that has room; or answers the number of the refusal.
type Call = unsafe extern "C" fn(
    thawed_kind: u32,
    thawed_slope: f64,
    thawed_offset: f64,
    frozen_kind: u32,
    frozen_slope: f64,
    frozen_offset: f64,
    tenths: i32,
    raw: u32,
    answer: *mut f64,
    answer_len: usize,
) -> u32;

#[cfg(proved_correction)]
fn linked() -> Option<Call> {
    #[link(name = "export_correction", kind = "static")]
    extern "C" {
        fn fastcgi_correct(
            thawed_kind: u32,
            thawed_slope: f64,
            thawed_offset: f64,
            frozen_kind: u32,
            frozen_slope: f64,
            frozen_offset: f64,
            tenths: i32,
            raw: u32,
            answer: *mut f64,
            answer_len: usize,
        ) -> u32;
    }
    Some(fastcgi_correct)
}

#[cfg(not(proved_correction))]
fn linked() -> Option<Call> {
    None
}

/// Floats at the edges, of either sign: zero, the smallest, 1,000 and its neighbours, those that are not finite.
const FLOATS: [f64; 10] = [
    0.0,
    f64::from_bits(1),
    0.1,
    1_000.0,
    1_000_f64.next_down(),
    1_000_f64.next_up(),
    f64::MAX,
    f64::INFINITY,
    f64::NAN,
    // With the quiet bit off it signals.
    f64::from_bits(0x7ff0_0000_0000_0001),
];
const TENTHS: [i32; 8] = [i32::MIN, -601, -600, -1, 0, 400, 401, i32::MAX];
const RAWS: [u32; 5] = [0, 1, 65_535, 65_536, u32::MAX];
/// Numbers of a frozen curve: also those that are 0 in their low bytes, or below zero with a sign.
const FROZEN: [u32; 6] = [1, 2, 256, 65_536, 1 << 31, u32::MAX];
/// What the buffer holds before the call: NaNs, which no call answers.
const FILL: u64 = 0x7ff4_5555_aaaa_0000;
const BUFFER: usize = 4;

/// How many answers came: corrected, refused by 41 to 44, and corrected otherwise than in one operation for two.
#[derive(Default)]
struct Seen {
    answers: [usize; 5],
    not_fused: usize,
}

/// What is passed for a card: a kind, a slope and an offset. A thawed curve has no slope, so any is passed.
fn passed(card: &Card, random: &mut Random) -> (u32, f64, f64) {
    match card.curve {
        Curve::Thawed { offset } => {
            let any = f64::from_bits(random.draw());
            (0, random.pick(&[any, 0.0, 1.0, f64::NAN]), offset)
        }
        Curve::Frozen { slope, offset } => (random.pick(&FROZEN), slope, offset),
    }
}

/// Makes the call with a buffer of any length and holds it to the ordinary one. The error says what was asked.
fn compared(
    call: Call,
    random: &mut Random,
    seen: &mut Seen,
    (cards, tenths, raw): (Calibration, i32, u32),
) -> Result<(), String> {
    let first = passed(&cards.thawed, random);
    let second = passed(&cards.frozen, random);
    let lent = random.index(BUFFER);
    let mut wanted: [u64; BUFFER] = std::array::from_fn(|i| FILL + i as u64);
    let mut buffer = wanted.map(f64::from_bits);
    // The buffer is longer than what is lent of it, and the library keeps nothing.
    let number = unsafe {
        let (answer, answer_len) = (buffer.as_mut_ptr(), lent);
        call(
            first.0, first.1, first.2, second.0, second.1, second.2, tenths, raw, answer,
            answer_len,
        )
    };
    let told = correct(&cards, tenths, raw);
    let wanted_number = told.map_or_else(|refusal| refusal as u32, |_| 0);
    if let (Ok(count), 1..) = (told, lent) {
        wanted[0] = count.to_bits();
    }
    seen.answers[wanted_number.saturating_sub(40) as usize] += 1;
    if let (Ok(count), Curve::Frozen { slope, offset }) = (told, cards.frozen.curve) {
        let fused = slope.mul_add(f64::from(tenths) / 10.0, raw.into()) + offset;
        seen.not_fused += usize::from(tenths < 0 && fused.to_bits() != count.to_bits());
    }
    let got = buffer.map(f64::to_bits);
    if (number, got) == (wanted_number, wanted) {
        return Ok(());
    }
    let bits = |(kind, slope, offset): (u32, f64, f64)| {
        format!("{kind} {:016x} {:016x}", slope.to_bits(), offset.to_bits())
    };
    Err(format!(
        "cards {}, {}, {tenths} tenths, raw count {raw}, room for {lent}:\n  \
         the proved one: {number}, {got:016x?}\n  the ordinary one: {wanted_number}, {wanted:016x?}",
        bits(first),
        bits(second)
    ))
}

/// Cards of the right and of the wrong kind, with each of the floats in each place.
fn edges() -> impl Iterator<Item = (Calibration, i32, u32)> {
    let floats: Vec<f64> = FLOATS.iter().flat_map(|&float| [float, -float]).collect();
    let n = floats.len();
    let of = |curve| Card { serial: 0, curve };
    (0..n * n * n * 4).flat_map(move |i| {
        let [a, slope, b] = [i, i / n, i / n / n].map(|i| floats[i % n]);
        let thawed = |offset| of(Curve::Thawed { offset });
        let frozen = |offset| of(Curve::Frozen { slope, offset });
        let (thawed, frozen) = match i / n / n / n {
            0 => (thawed(a), frozen(b)),
            1 => (thawed(a), thawed(b)),
            2 => (frozen(a), frozen(b)),
            _ => (frozen(b), thawed(a)),
        };
        TENTHS
            .into_iter()
            .flat_map(move |tenths| RAWS.map(|raw| (Calibration { thawed, frozen }, tenths, raw)))
    })
}

fn main() -> ExitCode {
    let words: Vec<String> = std::env::args().skip(1).collect();
    let Some(Ok(cards)) = words.first().map(|word| word.parse::<u64>()) else {
        eprintln!("usage: corrections CARDS");
        return ExitCode::from(2);
    };
    let Some(call) = linked() else {
        eprintln!("corrections: built without target/staticlib/libexport_correction.a, so nothing is compared");
        return ExitCode::FAILURE;
    };
    let (mut random, mut seen) = (Random::new(1), Seen::default());
    for question in (0..cards).map(correction).chain(edges()) {
        if let Err(difference) = compared(call, &mut random, &mut seen, question) {
            println!("the corrections differ: {difference}");
            return ExitCode::FAILURE;
        }
    }
    let [corrected, refused @ ..] = seen.answers;
    let all: usize = seen.answers.iter().sum();
    println!(
        "{all} corrections, {cards} of them random: both give the same bits ({corrected} corrected, {} of them not as \
         in one operation; refused by 41 to 44: {refused:?})",
        seen.not_fused
    );
    ExitCode::SUCCESS
}

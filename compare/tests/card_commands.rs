//! The command of ice correction in the twin of the console: what its line is made of, what it answers, and that it
//! leaves everything else as it was.

use compare::console::Console;
use compare::correction::{correct, Calibration, Card, Curve};
use compare::scripts::correction;

const ZERO: &str = "000000000000000000";
const ZEROS: &str = "0100000000000000000000000000000000";

/// Lines and their answers, one after the other.
fn check(script: &[(&str, &str)]) {
    let mut console = Console::default();
    for (line, wanted) in script {
        assert_eq!(console.answer(line.as_bytes()), *wanted, "{line}");
    }
}

fn answer(line: &str) -> String {
    Console::default().answer(line.as_bytes())
}

#[test]
fn counts_and_refusals() {
    check(&[
        (
            "correct 000000000000000000 013fe00000000000000000000000000000 -184 12",
            "count 4006666666666668",
        ),
        (
            "correct 00bff0000000000000 0100000000000000000000000000000000 0 0",
            "count bff0000000000000",
        ),
        // Of a frozen card the slope comes first: at -1 degree 3 is added by it and 5 by the offset.
        (
            "correct 000000000000000000 01c0080000000000004014000000000000 -10 0",
            "count 4020000000000000",
        ),
        // Zeros before the bits are shown.
        (
            "correct 000000000000000001 0100000000000000000000000000000000 0 0",
            "count 0000000000000001",
        ),
        (&format!("correct {ZERO} {ZEROS} 0 65536"), "refused 41"),
        (&format!("correct {ZERO} {ZEROS} 401 65535"), "refused 42"),
        (&format!("correct {ZEROS} {ZERO} 0 0"), "refused 43"),
        (
            &format!("correct 007ff0000000000001 {ZEROS} 0 0"),
            "refused 44",
        ),
    ]);
}

#[test]
fn numbers_at_their_limits() {
    let line = |tenths: &str, raw: &str| answer(&format!("correct {ZERO} {ZEROS} {tenths} {raw}"));
    assert_eq!(line("-0", "0"), "count 0000000000000000");
    assert_eq!(line("-00000000000000000600", "00000000000000000001"), ONE);
    assert_eq!(line("00000000000000000400", "1"), ONE);
    assert_eq!(line("-2147483648", "1"), "refused 42");
    assert_eq!(line("2147483647", "1"), "refused 42");
    assert_eq!(line("0", "4294967295"), "refused 41");
    for (tenths, raw) in [
        ("2147483648", "1"),
        ("-2147483649", "1"),
        ("-000000000000000000001", "1"),
        ("+1", "1"),
        ("--1", "1"),
        ("-", "1"),
        ("", "1"),
        ("0", "4294967296"),
        ("0", "18446744073709551616"),
        ("0", "000000000000000000001"),
        ("0", "-1"),
        ("0", "-0"),
        ("0", "-"),
        ("0", ""),
    ] {
        assert_eq!(line(tenths, raw), "what", "{tenths} {raw}");
    }
}

const ONE: &str = "count 3ff0000000000000";

/// A card of any number of bytes from none to 40, with any first byte.
#[test]
fn what_is_a_card() {
    for length in 0..=40 {
        for kind in 0..=255 {
            let mut bytes = vec![0; length];
            if let Some(first) = bytes.first_mut() {
                *first = kind;
            }
            let card: String = bytes.iter().map(|byte| format!("{byte:02x}")).collect();
            let card = if card.is_empty() { "-" } else { &card };
            let (first, second) = match (length, kind) {
                (9, 0) => (ONE, "refused 43"),
                (17, 1) => ("refused 43", ONE),
                _ => ("what", "what"),
            };
            assert_eq!(answer(&format!("correct {card} {ZEROS} 0 1")), first);
            assert_eq!(answer(&format!("correct {ZERO} {card} 0 1")), second);
        }
    }
}

#[test]
fn not_to_the_letter() {
    for line in [
        "correct".into(),
        "correct ".into(),
        format!("correct {ZERO} {ZEROS}"),
        format!("correct {ZERO} {ZEROS} 0"),
        format!("correct {ZERO} {ZEROS} 0 1 "),
        format!("correct {ZERO} {ZEROS} 0 1 1"),
        format!("correct  {ZERO} {ZEROS} 0 1"),
        format!("correct {ZERO}  {ZEROS} 0 1"),
        format!("correct {ZERO} {ZEROS} 0  1"),
        format!("Correct {ZERO} {ZEROS} 0 1"),
        format!("corrected {ZERO} {ZEROS} 0 1"),
        format!("correct 00000000000000000A {ZEROS} 0 1"),
        format!("correct 00000000000000000g {ZEROS} 0 1"),
        format!("correct {ZERO}0 {ZEROS} 0 1"),
        format!("correct 0x{ZERO} {ZEROS} 0 1"),
        format!("correct {ZERO}{ZEROS} 0 1"),
        format!("correct {ZERO} - {ZEROS} 0 1"),
    ] {
        assert_eq!(answer(&line), "what", "{line}");
    }
}

/// No state of the console has a part in it, and none is changed.
#[test]
fn it_stands_by_itself() {
    let mut console = Console::default();
    let count = format!("correct {ZERO} {ZEROS} -1 1");
    let refused = format!("correct {ZERO} {ZERO} -1 1");
    for before in [
        "store",
        "start",
        "next 012a000000000000",
        "next 0101000100080000000101000000000001",
        "read 01ef",
        "poke held 9",
        "lend 5",
        "read 80000102",
    ] {
        console.answer(before.as_bytes());
        let kept = console.clone();
        assert_eq!(console.answer(count.as_bytes()), ONE);
        assert_eq!(console.answer(refused.as_bytes()), "refused 43");
        assert_eq!(console.answer(b"correct 00 01 0 1"), "what");
        assert_eq!(console.connection, kept.connection);
        assert_eq!(console.store, kept.store);
        assert_eq!(console.lent, kept.lent);
        assert_eq!(console.event, kept.event);
        assert_eq!(console.reader, kept.reader);
    }
}

fn card_hex(card: &Card) -> String {
    match card.curve {
        Curve::Thawed { offset } => format!("00{:016x}", offset.to_bits()),
        Curve::Frozen { slope, offset } => {
            format!("01{:016x}{:016x}", slope.to_bits(), offset.to_bits())
        }
    }
}

/// The line says what the call says, for NaNs with any bits too.
#[test]
fn the_line_is_the_call() {
    for seed in 0..20_000 {
        let (Calibration { thawed, frozen }, tenths, raw) = correction(seed);
        let wanted = match correct(&Calibration { thawed, frozen }, tenths, raw) {
            Ok(count) => format!("count {:016x}", count.to_bits()),
            Err(refusal) => format!("refused {}", refusal as u8),
        };
        let (thawed, frozen) = (card_hex(&thawed), card_hex(&frozen));
        let line = format!("correct {thawed} {frozen} {tenths} {raw}");
        assert_eq!(answer(&line), wanted, "{line}");
    }
}

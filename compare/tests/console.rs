//! The twin of the console against its page: what lines are made of, and what the answers look like.

use compare::console::Console;
use compare::state::{AREA, STORE};

fn answers(lines: &[&str]) -> Vec<String> {
    let mut console = Console::default();
    lines
        .iter()
        .map(|line| console.answer(line.as_bytes()))
        .collect()
}

fn lend(n: usize) -> String {
    format!("lend {n}")
}

/// Lines and their answers, one after the other.
fn check(script: &[(&str, &str)]) {
    let lines: Vec<&str> = script.iter().map(|(line, _)| *line).collect();
    for ((line, wanted), answer) in script.iter().zip(answers(&lines)) {
        assert_eq!(answer, *wanted, "{line}");
    }
}

#[test]
fn a_whole_request() {
    check(&[
        ("active", "refused 1"),
        ("start", "open"),
        ("step 0101000100080000", "used 8"),
        ("step 0001010000000000", "used 8 open 1 responder keep"),
        ("value 1 41 4e", "refused 4 4e"),
        ("step 0104000100040000", "used 8"),
        ("step 0101414201", "used 4"),
        ("area 1", "area 01014142"),
        ("step 0104000100000000", "used 8 ready 1 4"),
        ("value 1 41 -", "store 42"),
        ("value 1 42 -", "fallback -"),
        ("pair 1 0", "pair 2 1 3 1"),
        ("pair 1 1", "refused 7"),
        ("walk 1", "walk 4 2,1,3,1 end 4"),
        ("store", "store 4 0 3"),
        ("step 0105000100020000", "used 8"),
        ("step 616263", "used 2 data 1 stdin 6162"),
        ("say 1 stdout - 0", "wrote 0 -"),
        (
            "say 1 stderr 61 16",
            "wrote 16 01070001000107006100000000000000",
        ),
        ("end 1 stdout 8", "wrote 8 0106000100000000"),
        ("finish 1 1 23", "refused 6"),
        (
            "finish 1 1 24",
            "wrote 24 010700010000000001030001000800000000000100000000 open",
        ),
        ("area 1", "none"),
        ("store", "store 0"),
        ("active", "active 0"),
    ]);
}

#[test]
fn the_event_that_is_owed() {
    check(&[
        ("start", "open"),
        ("owed 0", "wrote 0 -"),
        ("step 012a000000000000", "used 8 unknown 42"),
        ("owed 15", "refused 6"),
        ("owed 16", "wrote 16 010b0000000800002a00000000000000"),
        ("lend 5", "ok"),
        ("step 00", "refused 2"),
        ("owed 16", "wrote 16 010b0000000800002a00000000000000"),
        (&lend(STORE), "ok"),
        ("step -", "used 0"),
        ("owed 16", "wrote 0 -"),
        ("step 0109000000000000", "used 8 query 000"),
        ("lend 5", "ok"),
        ("start", "refused 2"),
        ("owed 16", "wrote 0 -"),
        (&lend(STORE), "ok"),
        ("active", "refused 1"),
    ]);
}

/// The lines of `next` go on to an event; those of `step` in between take the same bytes one phase at a time.
#[test]
fn going_on_to_the_next_event() {
    check(&[
        ("next 01", "refused 1"),
        ("start", "open"),
        (
            "next 01010001000800000001010000000000010400010000000001",
            "used 16 open 1 responder keep",
        ),
        ("next 0104000100", "used 5"),
        ("step 000000", "used 3 ready 1 0"),
        ("step 010500010003020061", "used 8"),
        // Only the content is shown, whatever was used before it.
        ("next 616263ffff", "used 3 data 1 stdin 616263"),
        (
            "next ffff010500010003000064656601",
            "used 13 data 1 stdin 646566",
        ),
        ("next -", "used 0"),
        ("next 012a00000001000000", "used 8 unknown 42"),
        ("owed 16", "wrote 16 010b0000000800002a00000000000000"),
        (&lend(STORE - 1), "ok"),
        ("next 00", "refused 2"),
        ("owed 16", "wrote 16 010b0000000800002a00000000000000"),
        (&lend(STORE), "ok"),
        // What tells nothing leaves no event.
        ("next 00", "used 1"),
        ("owed 16", "wrote 0 -"),
        ("next 010900000000000000ff", "used 8 query 000"),
        ("owed 8", "wrote 8 010a000000000000"),
        ("next 00050001000000000109", "used 8 closed 11"),
        ("next -", "refused 1"),
    ]);
}

#[test]
fn what_is_no_command() {
    for line in [
        "",
        " ",
        "start ",
        "Start",
        "step",
        "step 0",
        "step 0A",
        "step - -",
        "next",
        "next 0",
        "next 1 00",
        &lend(STORE + 2),
        "feed",
        "feed 1",
        "feed 00",
        "feed 0 00",
        "feed 65537 00",
        "feed 1 0",
        "feed 1 - -",
        "walk 65536",
        "owed 70001",
        "pair 1 18446744073709551616",
        "pair 1 000000000000000000001",
        "finish 1 4294967296 0",
        "poke open 2",
        "poke role 0 0",
        "poke target params 256",
        "poke header 000000000000000000",
        "say 1 stdin - 0",
        "end 1 stdout",
        "\u{e9}",
        "poke",
    ] {
        assert_eq!(answers(&[line]), ["what"], "{line}");
    }
    assert_eq!(Console::default().answer(b"start\xff"), "what");
    assert_eq!(answers(&["pair 1 00000000000000000001"]), ["refused 1"]);
}

#[test]
fn the_greatest_line() {
    let line = |n: usize| format!("value 1 {} -", "0".repeat(n - 10));
    assert_eq!(answers(&[&line(140_000)]), ["refused 1 -"]);
    assert_eq!(answers(&[&line(140_001)]), ["long"]);
    // It does nothing.
    let start = format!("start{}", " ".repeat(140_000));
    assert_eq!(answers(&["start", &start, "active"])[2], "active 0");
}

#[test]
fn pokes() {
    let second = 15 * AREA + 1;
    check(&[
        ("poke open 1", "ok"),
        ("poke occupied 32768", "ok"),
        ("active", "refused 9"),
        ("poke id 15 7", "ok"),
        ("active", "active 1"),
        ("poke length 15 3", "ok"),
        (&format!("poke byte {second} 255"), "ok"),
        ("area 7", "area 00ff00"),
        ("store", &format!("store 1 {second} {second}")),
        ("poke length 15 65535", "ok"),
        ("walk 7", "refused 9"),
        ("poke length 15 0", "ok"),
        ("poke target begin 8", "ok"),
        ("poke content 2", "ok"),
        ("poke gathered 6", "ok"),
        ("poke body 0003", "ok"),
        ("step 0000", "used 2 open 8 filter drop"),
        ("poke held 7", "ok"),
        ("poke header 01020008000000", "ok"),
        ("step ff", "used 1 abort 8"),
        (
            "finish 8 0 24",
            "wrote 24 010600080000000001030008000800000000000000000000 closed",
        ),
        ("active", "refused 1"),
    ]);
}

/// An open connection with requests 1 and 2, whose parameters have ended.
const TWO_READY: &str =
    "01010001000800000001010000000000010400010000000001010002000800000003010000000000\
                         0104000200000000";

#[test]
fn feeding_in_pieces_of_any_size() {
    for size in [1, 2, 7, 8, 9, 40, 65_536] {
        // Two records of one stream are told as one, two requests and two streams are not; padding is not content.
        let data = "01050001000103006100000001050001000200006263010500020001000064\
                    01050002000000000108000200020000656601050001000100006a";
        check(&[
            ("start", "open"),
            (
                &format!("feed {size} {TWO_READY}"),
                "open 1 responder keep; ready 1 0; open 2 filter keep; ready 2 0; used 48",
            ),
            (
                &format!("feed {size} {data}"),
                "data 1 stdin 616263; data 2 stdin 64; end 2 stdin unstated; data 2 data 6566; \
                 data 1 stdin 6a; used 58",
            ),
            ("active", "active 2"),
            // Inside a record, and on.
            (&format!("feed {size} 01050001000400"), "used 7"),
            (&format!("feed {size} 0061"), "data 1 stdin 61; used 2"),
            (&format!("feed {size} 6263"), "data 1 stdin 6263; used 2"),
            // Data that was told by the feed before is not joined.
            (&format!("feed {size} 64"), "data 1 stdin 64; used 1"),
            (&format!("feed {size} -"), "used 0"),
        ]);
    }
}

#[test]
fn data_of_two_streams_is_not_joined() {
    check(&[
        ("start", "open"),
        (
            "feed 9 0101000100080000000301000000000001040001000000000105000100020000",
            "open 1 filter keep; ready 1 0; used 32",
        ),
        ("poke target data 0", "ok"),
        (
            "feed 65536 616201050001000100006301050001000100006401",
            "data 1 data 6162; data 1 stdin 6364; used 21",
        ),
    ]);
}

#[test]
fn feeding_ends_at_a_close() {
    for (size, bytes) in [(1, "ff"), (8, "01"), (65_536, "0109000000000000")] {
        check(&[
            ("start", "open"),
            (
                &format!("feed {size} 012a0000000000000001000100000000{bytes}"),
                "unknown 42; closed 11; used 16",
            ),
            ("owed 100", "wrote 0 -"),
            (&format!("feed {size} {bytes}"), "refused 1"),
            (&format!("feed {size} -"), "used 0"),
        ]);
    }
}

#[test]
fn the_event_that_is_owed_after_a_feed() {
    let unknown = "wrote 16 010b0000000800002a00000000000000";
    check(&[
        ("start", "open"),
        ("feed 65536 012a000000000000", "unknown 42; used 8"),
        ("owed 100", unknown),
        // The last that was told, whether or not bytes came behind it.
        (
            "feed 3 0109000000000000012a0000000100000001",
            "query 000; unknown 42; used 18",
        ),
        ("owed 100", unknown),
        // A first step that is refused leaves it as it was.
        (&lend(STORE - 1), "ok"),
        ("feed 1 05", "refused 2"),
        ("owed 100", unknown),
        (&lend(STORE), "ok"),
        // Nothing was told: there is none, also where there were no bytes.
        ("feed 1 0500", "used 2"),
        ("owed 100", "wrote 0 -"),
        ("start", "open"),
        ("feed 1 012a000000000000", "unknown 42; used 8"),
        ("feed 1 -", "used 0"),
        ("owed 100", "wrote 0 -"),
        ("feed 1 012a000000000000", "unknown 42; used 8"),
        ("step -", "used 0"),
        ("owed 100", "wrote 0 -"),
    ]);
}

#[test]
fn a_store_that_is_too_long() {
    let last = STORE - 1;
    check(&[
        (&lend(STORE + 1), "ok"),
        ("start", "refused 2"),
        (&lend(STORE), "ok"),
        ("start", "open"),
        (&lend(STORE + 1), "ok"),
        ("step 01", "refused 2"),
        ("feed 1 01", "refused 2"),
        ("walk 1", "refused 2"),
        ("finish 1 0 0", "refused 2"),
        ("active", "active 0"),
        (&format!("poke byte {STORE} 1"), "what"),
        (&format!("poke byte {last} 1"), "ok"),
        ("poke byte 2 1", "ok"),
        ("poke byte 3 9", "ok"),
        ("store", &format!("store 3 2 {last}")),
        ("lend 0", "ok"),
        ("store", &format!("store 3 2 {last}")),
        (&lend(STORE), "ok"),
        ("start", "open"),
        ("store", "store 0"),
    ]);
}

#[test]
fn the_longest_names_and_values() {
    let put = |name: usize, value: usize, room: usize| {
        format!("put {} {} {room}", "6e".repeat(name), "76".repeat(value))
    };
    assert_eq!(answers(&[&put(65_536, 1, 0)]), ["refused 8"]);
    assert_eq!(answers(&[&put(1, 65_536, 65_536)]), ["refused 8"]);
    assert_eq!(answers(&[&put(65_535, 1, 65_536)]), ["refused 6"]);
    assert_eq!(answers(&[&put(1, 65_535, 65_536)]), ["refused 6"]);
    assert_eq!(
        answers(&[&put(65_530, 1, 65_536)]),
        [format!("wrote 65536 8000fffa01{}76", "6e".repeat(65_530))]
    );
}

#[test]
fn counts_of_what_was_shown() {
    check(&[
        ("counts 1", "none"),
        ("start", "open"),
        (
            &format!("feed 9 {TWO_READY}"),
            "open 1 responder keep; ready 1 0; open 2 filter keep; ready 2 0; used 48",
        ),
        ("counts 1", "counts 0 0"),
        ("next 0105000200030000616263", "used 11 data 2 stdin 616263"),
        ("counts 2", "counts 3 0"),
        ("counts 1", "counts 0 0"),
        ("counts 0", "none"),
        ("poke shown 1 data 4294967295", "ok"),
        ("poke shown 1 stdin 00000000000000000004", "ok"),
        ("counts 2", "counts 4 4294967295"),
        ("counts 02", "counts 4 4294967295"),
        // Whatever is lent, and whatever the state is.
        (&lend(0), "ok"),
        ("poke open 0", "ok"),
        ("poke held 8", "ok"),
        ("counts 2", "counts 4 4294967295"),
        // The first of two slots.
        ("poke id 0 2", "ok"),
        ("counts 2", "counts 0 0"),
        ("poke occupied 2", "ok"),
        ("counts 2", "counts 4 4294967295"),
        ("counts", "what"),
        ("counts 2 ", "what"),
        ("counts 65536", "what"),
        ("poke shown 1 data 4294967296", "what"),
        ("poke shown 16 data 1", "what"),
        ("poke shown 1 params 1", "what"),
        ("poke shown 1 1", "what"),
        ("poke shown 1 data 1 1", "what"),
        ("counts 2", "counts 4 4294967295"),
    ]);
}

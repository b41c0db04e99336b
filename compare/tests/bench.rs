//! The twin of the bench: what its lines are, its random scripts, and the case files that are for it.

use compare::bench::Bench;
use compare::cases::language::BENCH as LANGUAGE;
use compare::cases::{expand, read_in, File};
use compare::console::words::hex;
use compare::drive::SCRIPT;
use compare::sides::BENCH;
use compare::tally::Tally;
use compare::wire::{kind::*, record_with};

fn answers(lines: &[&str]) -> Vec<String> {
    let mut bench = Bench::default();
    lines
        .iter()
        .map(|line| bench.answer(line.as_bytes()))
        .collect()
}

/// What the last of some lines is answered, behind a start.
fn last(lines: &[&str]) -> String {
    let all = [&["start"], lines].concat();
    answers(&all).pop().unwrap()
}

const OPEN: &str = "open 1 1 keep 16";

#[test]
fn what_it_begins_with() {
    let wanted = [
        "refused 1",
        "values -",
        "used 0",
        "what",
        "what",
        "open",
        "opened 0",
    ];
    let lines = [
        "opened", "values", "feed 1 -", "wait 1", "hang", "start", "opened",
    ];
    assert_eq!(answers(&lines), wanted);
}

#[test]
fn lines_that_are_no_commands() {
    for line in [
        "",
        " ",
        "Start",
        "open 1 1 keep",
        "open 1 1 yes 16",
        "open 1 65536 keep 16",
        "open 1 1 keep 70001",
        "write 1 params 41 16",
        "write 1 stdin 4 16",
        "end 1 stdout 16",
        "ask 0A 16",
        "feed 0 -",
        "feed 65537 -",
        "next -",
        "values 1",
        "lend 65536",
        "poke err_used 0 1",
        "poke target query",
        "poke target stdout 256",
        "poke body 000000000000000000",
        "wait 1",
        "hang",
        "wait",
    ] {
        assert_eq!(last(&[line]), "what", "{line}");
        // Nothing is done either.
        assert_eq!(last(&[line, "opened"]), "opened 0", "{line}");
    }
    let values = |n: usize| format!("poke values {}", "01".repeat(n));
    assert_eq!(last(&[&values(512)]), "ok");
    assert_eq!(last(&[&values(513)]), "what");
    // The length of a line is that of the line, whatever it says.
    assert_eq!(last(&[&"x".repeat(140_000)]), "what");
    assert_eq!(last(&[&"x".repeat(140_001)]), "long");
}

#[test]
fn a_poke_leaves_every_other_field() {
    let wanted = "used 4 output 1 stdout 61626364";
    let lines = [
        OPEN,
        "poke target stdout 0",
        "poke content 4",
        "poke values 05",
        "poke padding 2",
    ];
    assert_eq!(last(&[&lines[..], &["step 6162636465"]].concat()), wanted);
    let seventh = ["poke held 7", "poke header 010a000000000099", "step 00"];
    assert_eq!(last(&seventh), "used 1 values -");
}

#[test]
fn values_are_shown_without_the_zeros_at_their_end() {
    assert_eq!(
        last(&["poke values 0001000200", "values"]),
        "values 00010002"
    );
    assert_eq!(last(&["poke values 0000", "values"]), "values -");
    let all = "01".repeat(512);
    assert_eq!(
        last(&[&format!("poke values {all}"), "values"]),
        format!("values {all}")
    );
    // An event shows all of the list.
    let feed = "feed 9 010a0000000200000000";
    assert_eq!(last(&[feed]), "values 0000; used 10");
}

/// Output that follows directly is one event, whatever lies between its pieces; other output and other events are not.
#[test]
fn a_feed_does_not_depend_on_its_size() {
    let bytes = [
        record_with(STDOUT, 1, b"ab", 0, &[9; 6]),
        record_with(STDOUT, 1, b"c", 0, &[9; 7]),
        record_with(STDERR, 1, b"d", 0, &[]),
        record_with(STDOUT, 1, b"e", 0, &[]),
        record_with(UNKNOWN_TYPE, 0, &[7; 8], 0, &[]),
        record_with(STDOUT, 1, b"f", 0, &[]),
        record_with(STDOUT, 2, b"g", 0, &[]),
        record_with(STDOUT, 1, &[], 0, &[]),
        record_with(END, 1, &[0; 8], 0, &[]),
        record_with(STDOUT, 1, b"late", 0, &[]),
    ]
    .concat();
    let bytes = hex(&bytes);
    let wanted = "output 1 stdout 616263; output 1 stderr 64; output 1 stdout 65; unknown 7; \
                  output 1 stdout 66; output 2 stdout 67; ended 1 stdout; finished 1 0 0; \
                  closed 53; used 116";
    for size in 1..=130 {
        let feed = format!("feed {size} {bytes}");
        assert_eq!(
            last(&[OPEN, "open 2 1 keep 16", &feed]),
            wanted,
            "pieces of {size}"
        );
    }
}

#[test]
fn a_feed_ends_at_a_refusal() {
    assert_eq!(last(&[OPEN, "poke open 0", "feed 1 00"]), "refused 1");
    assert_eq!(last(&[OPEN, "poke held 9", "feed 1 00"]), "refused 9");
    assert_eq!(last(&[OPEN, "poke held 9", "feed 1 -"]), "used 0");
}

/// Every kind of answer comes, and the twin never says that a refused call changed something.
#[test]
fn random_scripts_meet_every_answer() {
    let mut tally = Tally::new(&BENCH);
    for seed in 0..40 {
        let script = (BENCH.generate)(seed, SCRIPT);
        assert_eq!(script.lines.len(), script.answers.len());
        let mut bench = Bench::default();
        for (line, answer) in script.lines.iter().zip(&script.answers) {
            assert_eq!(bench.answer(line), *answer);
            assert!(!answer.contains("changed") && !answer.contains("touched"));
            tally.count(line, answer);
        }
    }
    assert_eq!(tally.missing(), Vec::<String>::new());
}

fn first_run(text: &str) -> Vec<(String, String)> {
    let file = File {
        name: "one.txt".into(),
        text: text.into(),
    };
    let cases = read_in(&LANGUAGE, &[file]).unwrap_or_else(|error| panic!("{error}"));
    let all = expand(&cases).unwrap_or_else(|error| panic!("{error}"));
    let size = all[0].size;
    all.into_iter()
        .filter(|asked| asked.size == size)
        .map(|asked| (asked.command, asked.answer))
        .collect()
}

#[test]
fn records_of_a_case() {
    for (line, bytes) in [
        ("stdout 1 \"abc\"", "0106000100030500616263ffffffffff"),
        ("stderr 258", "0107010200000000"),
        ("finish 7 258 3", "01030007000800000000010203ffffff"),
        ("result 00 00", "010a0000000206000000ffffffffffff"),
        ("result", "010a000000000000"),
        ("unknown 9", "010b00000008000009ffffffffffffff"),
        ("record 5 1 00", "010500010001070000ffffffffffffff"),
        ("bytes 01 \"a\"", "0161"),
    ] {
        let run = first_run(&format!("case one\n{line}\n> closed 51\n> used 0\n"));
        assert_eq!(run[0], ("start".into(), "open".into()));
        assert_eq!(
            run[1],
            (format!("feed 1 {bytes}"), "closed 51; used 0".into()),
            "{line}"
        );
        assert_eq!(run.len(), 2);
    }
}

#[test]
fn commands_of_a_case() {
    let run = first_run("case one\npair 1 \"LOG\" - 16\n> wrote 8 01 04 \"abcdef\"\npoke open 0\nstep 01 02\n> used 2 output 1 stdout \"a\" 62\n");
    let wanted = [
        ("start", "open"),
        ("pair 1 4c4f47 - 16", "wrote 8 0104616263646566"),
        ("poke open 0", "ok"),
        ("step 0102", "used 2 output 1 stdout 6162"),
    ];
    assert_eq!(run, wanted.map(|(a, b)| (a.to_string(), b.to_string())));
    // What is said for the console alone is no line here.
    for line in [
        "begin 1 responder keep",
        "next 00",
        "read 00",
        "active",
        "body new",
    ] {
        let file = File {
            name: "one.txt".into(),
            text: format!("case one\n{line}\n> ok\n"),
        };
        assert!(read_in(&LANGUAGE, &[file]).is_err(), "{line}");
    }
}

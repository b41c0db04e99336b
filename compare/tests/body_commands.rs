//! The commands of readings in the twin of the console: what their lines are made of, what they answer, and that the
//! reader is theirs alone.

use compare::console::{Console, LONGEST_LINE};
use compare::scripts::body;

/// Lines and their answers, one after the other.
fn check(script: &[(&str, &str)]) {
    let mut console = Console::default();
    for (line, wanted) in script {
        assert_eq!(console.answer(line.as_bytes()), *wanted, "{line}");
    }
}

fn hex(bytes: &[u8]) -> String {
    match bytes {
        [] => "-".into(),
        _ => bytes.iter().map(|byte| format!("{byte:02x}")).collect(),
    }
}

#[test]
fn bodies() {
    check(&[
        // The console begins with a new reader.
        ("read -", "used 0"),
        ("body end", "clean"),
        ("read 01ef", "used 2"),
        ("read -", "used 0"),
        ("read 020502", "reading 1 -184 5; used 3"),
        ("read 0406030201ff", "reading 2 2 6; reading 3 1 1; used 6"),
        ("body end", "refused 34"),
        ("read 01", "refused 34 at 0"),
        ("read -", "refused 34 at 0"),
        ("body end", "refused 34"),
        ("body new", "ok"),
        (
            "read 010203040506078000010203",
            "reading 1 1 3; reading 4 -3 6; refused 32 at 9",
        ),
        ("read 010203", "refused 32 at 0"),
        ("body end", "refused 32"),
        ("body new", "ok"),
        ("read 8080", "used 2"),
        ("read 808010", "refused 31 at 3"),
        ("body new", "ok"),
        ("read 07a2", "used 2"),
        ("read 0600", "refused 33 at 1"),
        ("body new", "ok"),
        // A new body begins inside a reading too, and a clean end gives one.
        ("read 81", "used 1"),
        ("body new", "ok"),
        ("read 010203", "reading 1 1 3; used 3"),
        ("body end", "clean"),
        ("read 010203", "reading 1 1 3; used 3"),
    ]);
}

#[test]
fn readings_written() {
    check(&[
        ("reading 1 -184 5 4", "wrote 4 01ef0205"),
        ("reading 1 -184 5 70000", "wrote 4 01ef0205"),
        ("reading 1 -184 5 3", "refused 6"),
        ("reading 1 -184 5 0", "refused 6"),
        ("reading 1 -601 5 0", "refused 33"),
        ("reading 1 401 5 12", "refused 33"),
        ("reading 0 0 0 3", "wrote 3 000000"),
        (
            "reading 4294967295 -600 4294967295 12",
            "wrote 12 ffffffff0faf09ffffffff0f",
        ),
        (
            "reading 00000000004294967295 -00000000000000000600 0 12",
            "wrote 8 ffffffff0faf0900",
        ),
        ("reading 0 -0 0 3", "wrote 3 000000"),
        ("reading 0 -2147483648 0 3", "refused 33"),
        ("reading 0 2147483647 0 3", "refused 33"),
    ]);
}

const NO_COMMANDS: [&str; 35] = [
    "reading 1 2 3",
    "reading 1 2 3 12 ",
    "reading  1 2 3 12",
    "reading 4294967296 2 3 12",
    "reading 1 2 4294967296 12",
    "reading 1 2 3 70001",
    "reading -1 2 3 12",
    "reading 1 2 -3 12",
    "reading 1 2147483648 3 12",
    "reading 1 -2147483649 3 12",
    "reading 1 18446744073709551615 3 12",
    "reading 1 -18446744073709551616 3 12",
    "reading 1 000000000000000000184 3 12",
    "reading 1 -000000000000000000184 3 12",
    "reading 1 - 3 12",
    "reading 1 --1 3 12",
    "reading 1 +1 3 12",
    "reading 1 - 1 3 12",
    "reading 1 1- 3 12",
    "reading 1  3 12",
    "readings 1 2 3 12",
    "read",
    "read ",
    "read 0",
    "read 0A",
    "read - -",
    "read  -",
    "Read -",
    "body",
    "body ",
    "body end ",
    "body  end",
    "body New",
    "body new 1",
    "bodyend",
];

#[test]
fn not_to_the_letter() {
    for line in NO_COMMANDS {
        // Inside a number, where anything that is read would show.
        check(&[
            ("read 01ef", "used 2"),
            (line, "what"),
            ("read 0205", "reading 1 -184 5; used 2"),
        ]);
    }
}

#[test]
fn no_other_command_touches_the_reader() {
    let mut console = Console::default();
    let commands = "start;lend 5;start;lend 65536;start;step 0101;next 00;active;poke held 0;feed 3 010100010008000000\
        01010000000000;value 1 41 -;pair 1 0;walk 1;say 1 stdout 41 64;end 1 stdout 8;owed 64;put 41 42 64;area 1;\
        counts 1;store;reading 1 2 3 12;reading 1 401 3 12;reading 1 2 3 0;finish 1 0 64;what;;start";
    for (read, state) in [("read 01ef", "used 2"), ("read 8000", "refused 32 at 2")] {
        assert_eq!(console.answer(read.as_bytes()), state);
        let before = console.reader;
        for command in commands.split(';') {
            console.answer(command.as_bytes());
            assert_eq!(console.reader, before, "{command}");
        }
        assert_eq!(console.answer(&vec![b'r'; LONGEST_LINE + 1]), "long");
        assert_eq!(console.reader, before);
        console.answer(b"body new");
    }
}

/// However a body is cut into commands, its readings and its end are the same, and so is the byte of a refusal.
#[test]
fn cut_between_commands() {
    /// The readings, the refusal with its place in the body, and the end.
    fn told(pieces: &[&[u8]]) -> (String, String) {
        let (mut console, mut readings, mut before) = (Console::default(), String::new(), 0);
        for piece in pieces {
            let answer = console.answer(format!("read {}", hex(piece)).as_bytes());
            let (given, last) = answer.rsplit_once("; ").unwrap_or(("", &answer));
            readings += given;
            match last.rsplit_once(' ') {
                Some(("used", n)) => assert_eq!(n, piece.len().to_string()),
                Some((_, "0")) => {}
                Some((refused, at)) => {
                    let at: usize = at.parse().expect("a place is a number");
                    readings += &format!("{refused} {}", before + at);
                }
                None => panic!("{answer}"),
            }
            before += piece.len();
        }
        (readings.replace("; ", ""), console.answer(b"body end"))
    }
    for seed in 0..100 {
        let bytes = body(seed);
        let one = told(&[&bytes]);
        for size in [1, 2, 3, 7] {
            assert_eq!(told(&bytes.chunks(size).collect::<Vec<_>>()), one, "{seed}");
        }
        for at in 0..=bytes.len() {
            let (left, right) = bytes.split_at(at);
            assert_eq!(told(&[left, &[], right]), one, "{seed} at {at}");
        }
    }
}

#[test]
fn the_most_that_is_read_at_once() {
    let bytes = (LONGEST_LINE - "read ".len()) / 2;
    let mut console = Console::default();
    let answer = console.answer(format!("read {}", "7f".repeat(bytes)).as_bytes());
    let readings = "reading 127 -64 127; ".repeat(bytes / 3);
    assert_eq!(answer, format!("{readings}used {bytes}"));
    assert_eq!((bytes, answer.len()), (69_997, 489_982));
    assert_eq!(console.answer(b"body end"), "refused 34");
}

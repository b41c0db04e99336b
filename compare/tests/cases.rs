//! Case files: what they stand for, and what is said where something is wrong in them.

use compare::cases::{expand, read, Asked, File};
use compare::queue::QUEUE;
use compare::state::STORE;

fn file(text: &str) -> File {
    File {
        name: "one.txt".into(),
        text: text.into(),
    }
}

fn expanded(text: &str) -> Vec<Asked> {
    let cases = read(&[file(text)]).unwrap_or_else(|error| panic!("{error}"));
    expand(&cases).unwrap_or_else(|error| panic!("{error}"))
}

/// Commands and answers of the first run, without `lend` and `start`.
fn first_run(text: &str) -> Vec<(String, String)> {
    let all = expanded(text);
    let size = all[0].size;
    all.into_iter()
        .filter(|asked| asked.size == size)
        .map(|asked| (asked.command, asked.answer))
        .skip(3)
        .collect()
}

/// The line for the console that a command or a record gives.
fn command(line: &str) -> String {
    first_run(&format!("case one\n{line}\n> used 0\n"))[0]
        .0
        .clone()
}

fn answer(line: &str) -> String {
    first_run(&format!("case one\nactive\n> {line}\n"))[0]
        .1
        .clone()
}

fn wrong(text: &str) -> String {
    match read(&[file(text)]).and_then(|cases| expand(&cases).map(|_| ())) {
        Ok(()) => panic!("nothing is wrong with {text}"),
        Err(error) => error.to_string(),
    }
}

#[test]
fn records() {
    for (line, bytes) in [
        ("begin 1 responder keep", "01010001000800000001010000000000"),
        ("begin 258 filter drop", "01010102000800000003000000000000"),
        (
            "begin 65535 authorizer keep",
            "0101ffff000800000002010000000000",
        ),
        ("abort 7", "0102000700000000"),
        ("params 1", "0104000100000000"),
        (
            "params 1 01 02 \"A\" \"BC\"",
            "01040001000503000102414243ffffff",
        ),
        ("stdin 1 \"12345678\"", "01050001000800003132333435363738"),
        ("data 3 00", "010800030001070000ffffffffffffff"),
        ("values 0", "0109000000000000"),
        (
            "record 42 0 \"\\{9}\\ff\"",
            "012a000000090700ffffffffffffffffffffffffffffffff",
        ),
        ("bytes 01  05 \"a b\"", "0105612062"),
        ("bytes", "-"),
    ] {
        assert_eq!(command(line), format!("feed 1 {bytes}"), "{line}");
    }
}

#[test]
fn records_are_sent_together() {
    let text = "case one\nparams 1\nabort 1\n\n# a remark\n> ready 1 0\n> abort 1\nabort 1\nactive\n> active 1\n";
    let wanted = [
        (
            "feed 1 01040001000000000102000100000000",
            "ready 1 0; abort 1; used 16",
        ),
        // What tells nothing is sent for itself where a command follows.
        ("feed 1 0102000100000000", "used 8"),
        ("active", "active 1"),
    ];
    let wanted = wanted.map(|(a, b)| (a.to_string(), b.to_string()));
    assert_eq!(first_run(text), wanted);
}

#[test]
fn how_often_a_case_is_run() {
    let all = expanded("case one\nbytes 00\ncase two\nactive\n> active 0\n");
    let lines: Vec<&str> = all.iter().map(|asked| asked.command.as_str()).collect();
    let lend = format!("lend {STORE}");
    let lend_queue = format!("lend queue {QUEUE}");
    let run = [lend.as_str(), lend_queue.as_str(), "start"];
    let feeds = ["feed 1 00", "feed 7 00", "feed 8 00", "feed 65536 00"];
    let mut wanted = Vec::new();
    for feed in feeds {
        wanted.extend(run);
        wanted.push(feed);
    }
    wanted.extend(run);
    wanted.push("active");
    assert_eq!(lines, wanted);
    assert_eq!(all[3].size, Some(1));
    assert_eq!(
        (all[19].size, all[19].line, &*all[19].title),
        (None, 4, "two")
    );
}

#[test]
fn what_a_feed_uses() {
    let told = |lines: &str| {
        let all = first_run(&format!("case one\nbytes 000102\n{lines}"));
        all[0].1.clone()
    };
    assert_eq!(told(""), "used 3");
    assert_eq!(told("> fault 1 22\n"), "fault 1 22; used 3");
    assert_eq!(told("> fault 1 25 at 15\n"), "fault 1 25 at 15; used 3");
    assert_eq!(told("> closed 11\n> used 2\n"), "closed 11; used 2");
    assert_eq!(told("> refused 1\n"), "refused 1");
    assert_eq!(
        told("> data 1 stdin 0a \"b\"\n"),
        "data 1 stdin 0a62; used 3"
    );
}

#[test]
fn commands() {
    for (line, wanted) in [
        ("value 1 \"AB\" -", "value 1 4142 -"),
        ("value 1 \"\" \"none\"", "value 1 - 6e6f6e65"),
        (
            "say 1 stdout \"a \\22\\5c\" 100",
            "say 1 stdout 6120225c 100",
        ),
        (
            "say 1 stdout 0106\"-18\"00 8",
            "say 1 stdout 01062d313800 8",
        ),
        ("put \"\\{3}n\" \"\\{2}\\0a\" 9", "put 6e6e6e 0a0a 9"),
        ("step -", "step -"),
        ("step 01 02 \"ab\"", "step 01026162"),
        ("next 01 \"ab\" 02", "next 01616202"),
        ("feed 3 01 02 \"ab\"", "feed 3 01026162"),
        ("pair  1   0", "pair 1 0"),
        ("poke body 00\"a\"", "poke body 0061"),
    ] {
        assert_eq!(command(line), wanted, "{line}");
    }
}

#[test]
fn answers() {
    for (line, wanted) in [
        ("wrote 3 01 02  \"a\"", "wrote 3 010261"),
        ("wrote 2 01 02 open", "wrote 2 0102 open"),
        (
            "wrote 2 \"ab\" closed touched",
            "wrote 2 6162 closed touched",
        ),
        ("wrote 0 -", "wrote 0 -"),
        ("wrote 0 - open", "wrote 0 - open"),
        ("pumped 1 3 01 02 \"a\" open", "pumped 1 3 010261 open"),
        ("pumped 0 0 - closed", "pumped 0 0 - closed"),
        ("waits 1 - 7 \"a\" 07", "waits 1 - 7 61 07"),
        ("area -", "area -"),
        ("area 01 \"AB\"", "area 014142"),
        (
            "used 2 data 7 stdin \"ab\" 00",
            "used 2 data 7 stdin 616200",
        ),
        ("store \"80\"", "store 3830"),
        ("store 4 0 3", "store 4 0 3"),
        ("refused 4 \"none\"", "refused 4 6e6f6e65"),
        ("walk 4 2,1,3,1 end 4", "walk 4 2,1,3,1 end 4"),
    ] {
        assert_eq!(answer(line), wanted, "{line}");
    }
    // What sets something is answered by ok.
    let all = first_run("case one\npoke held 8\nlend 5\nlend 9\n> what\n");
    let answers: Vec<&str> = all.iter().map(|(_, answer)| answer.as_str()).collect();
    assert_eq!(answers, ["ok", "ok", "what"]);
}

#[test]
fn repetition() {
    let text = "case one\nactive\n> a\ntimes 2\nactive\n> b\nstore\n> c\ndone\nstore\n> d\n";
    let all = first_run(text);
    let answers: Vec<&str> = all.iter().map(|(_, answer)| answer.as_str()).collect();
    assert_eq!(answers, ["a", "b", "c", "b", "c", "d"]);
}

#[test]
fn readings() {
    let told = |answers: &str| {
        let all = first_run(&format!("case one\nread 01 02 \"A\"\n{answers}"));
        // Behind the line that gives a new reader.
        all[1].clone()
    };
    let line = |answer: &str| ("read 010241".into(), answer.into());
    assert_eq!(told(""), line("used 3"));
    assert_eq!(told("> reading 1 1 65\n"), line("reading 1 1 65; used 3"));
    assert_eq!(
        told("> reading 1 1 3\n> reading 1 1 3\n> refused 32 at 2\n"),
        line("reading 1 1 3; reading 1 1 3; refused 32 at 2")
    );
    // It is one line, whatever the size of pieces.
    let all =
        expanded("case one\nread -\nbody end\n> clean\nreading 1 -2 3 9\n> wrote 3 01 03 03\n");
    let lines: Vec<(&str, &str)> = all.iter().map(|a| (&*a.command, &*a.answer)).collect();
    assert_eq!(
        lines[2..],
        [
            ("start", "open"),
            ("body new", "ok"),
            ("read -", "used 0"),
            ("body end", "clean"),
            ("reading 1 -2 3 9", "wrote 3 010303"),
        ]
    );
    // The answer to a new body need not be written; a case that does not read has none before it.
    let all = first_run("case one\nbody new\nbody new\n> what\n");
    let answers: Vec<&str> = all.iter().map(|(_, answer)| answer.as_str()).collect();
    assert_eq!(answers, ["ok", "ok", "what"]);
    assert_eq!(
        first_run("case one\nreading 1 2 3 2\n> refused 6\n").len(),
        1
    );
}

#[test]
fn what_is_wrong_and_where() {
    for (text, wanted) in [
        ("active\n", "one.txt:1: no case has begun"),
        ("case a\n> open\n", "one.txt:2: an answer without"),
        ("case a\n\nactive\n", "one.txt:3: no answer follows"),
        ("case a\ncase b\nbytes 00\n", "one.txt:1: the case is empty"),
        (
            "case a\nactive\n> active 0\n> active 0\n",
            "one.txt:2: a command has one answer",
        ),
        (
            "case a\nstdn 1 \"a\"\n",
            "one.txt:2: `stdn` is no command and no record",
        ),
        (
            "case a\nstdin 1 \"a\n",
            "one.txt:2: a quoted text has no end",
        ),
        ("case a\nstdin 1 a\n", "one.txt:2: `a`: bytes are"),
        ("case a\nstdin 1 0A\n", "one.txt:2: `0A`: bytes are"),
        ("case a\nstdin 1 \"a\"-\n", "one.txt:2: `-`: bytes are"),
        ("case a\nstdin 65536\n", "one.txt:2: `65536` is no id"),
        ("case a\nstdin\n", "one.txt:2: it is `stdin ID BYTES`"),
        ("case a\nabort 1 00\n", "one.txt:2: it is `abort ID`"),
        ("case a\ntimes 0\n", "one.txt:2: it is `times N`"),
        ("case a\ndone\n", "one.txt:2: `done` without `times`"),
        (
            "case a\ntimes 2\ntimes 2\n",
            "one.txt:3: what is repeated has",
        ),
        ("case a\ntimes 2\nbytes 00\n", "one.txt:1: `times` without"),
        (
            "case a\nactive\n> pumped 1 3 01 open\n",
            "one.txt:3: `pumped 3`, but 1 bytes",
        ),
        ("case a\nbegin 1 responder\n", "one.txt:2: it is `begin ID"),
        ("case a\nbegin 1 robot keep\n", "one.txt:2: it is `begin ID"),
        ("case a\nrecord 256 1\n", "one.txt:2: `256` is no type"),
        (
            "case a\nstdin 1 \"\\{65536}x\"\n",
            "one.txt:2: a record has at most",
        ),
        (
            "case a\nstdin 1 \"\\{x}x\"\n",
            "one.txt:2: `x` is no number of times",
        ),
        (
            "case a\nstdin 1 \"\\{5x\"\n",
            "one.txt:2: a number of times has no",
        ),
        (
            "case a\nstdin 1 \"\\{5}\"\n",
            "one.txt:2: a byte is missing",
        ),
        (
            "case a\nstdin 1 \"\\0\"\n",
            "one.txt:2: behind `\\` come two hex digits",
        ),
        (
            "case a\nstdin 1 \"\u{e9}\"\n",
            "one.txt:2: `\u{e9}` cannot stand in a text",
        ),
        (
            "case a\nstdin 1\n> opened 1\n",
            "one.txt:3: `opened` is no event",
        ),
        (
            "case a\nstdin 1\n> used 8\n> end 1 stdin unstated\n",
            "one.txt:4: nothing is told after",
        ),
        (
            "case a\nowed 8\n> wrote 8 00\n",
            "one.txt:3: `wrote 8`, but 1 bytes are shown",
        ),
        (
            "case a\nowed 8\n> wrote 8\n",
            "one.txt:3: bytes are missing at the end",
        ),
        (
            "case a\nowed 8\n> wrote open\n",
            "one.txt:3: bytes are missing at the end",
        ),
        (
            "case a\nowed 8\n>\n",
            "one.txt:3: an answer is missing behind >",
        ),
        ("case a\nstep\n", "one.txt:2: bytes are missing at the end"),
        ("case a\nnext\n", "one.txt:2: bytes are missing at the end"),
        ("case a\nread\n", "one.txt:2: bytes are missing at the end"),
        (
            "case a\nread 01\n> ready 1 0\n",
            "one.txt:3: `ready` is no reading",
        ),
        (
            "case a\nread 01\n> used 1\n> reading 1 1 1\n",
            "one.txt:4: nothing is told after",
        ),
        ("case a\nbody end\n", "one.txt:2: no answer follows"),
        (
            "case a\nbytes \"\\{70000}x\"\n",
            "one.txt:2: the line for this would be too long",
        ),
        (
            "case a\ncase b\ncase a\n",
            "one.txt:3: there is a case of this title in one.txt already",
        ),
    ] {
        let what = wrong(text);
        assert!(what.starts_with(wanted), "{text}: {what}");
    }
}

//! Lines that are no commands, numbers at their limits, lines at the greatest length.

use super::Draft;
use crate::console::{LONGEST_LINE, WHOLE_STORE};
use crate::queue::QUEUE;
use crate::state::STORE;

/// Whole lines: what is almost a command, and commands at the limits of their numbers.
const LINES: [&str; 168] = [
    "",
    " ",
    "-",
    "start ",
    " start",
    "start start",
    "Start",
    "starting",
    "star",
    "\tstart",
    "start\r",
    "step",
    "step ",
    "step 0",
    "step 0G",
    "step 0A",
    "step 010",
    "step --",
    "step - -",
    "step  -",
    "step 0x01",
    "next",
    "next ",
    "next 0",
    "next 0A",
    "next - -",
    "next 8 00",
    "nextstep 00",
    "lend",
    "feed",
    "feed 1",
    "feed 0 01",
    "feed 65536 -",
    "feed 65537 01",
    "feed 1 0",
    "feed 1 0A",
    "feed 1 - -",
    "feed -",
    "lend -1",
    "lend +1",
    "lend 18446744073709551616",
    "value 1 -",
    "value 1 - - -",
    "value 65536 - -",
    "value 00000000000000065535 - -",
    "value - - -",
    "value 1 41 4",
    "value 1 ab AB",
    "pair 1",
    "pair 1 18446744073709551615",
    "pair 1 18446744073709551616",
    "pair 1 99999999999999999999",
    "pair 1 00000000000000000000",
    "pair 1 000000000000000000000",
    "pair 65536 0",
    "pair 1 -",
    "walk",
    "walk 65535",
    "walk 65536",
    "walk 1 ",
    "say 1 stdin 41 100",
    "say 1 stdout 41",
    "say 1 stdout 41 70000",
    "say 1 stdout 41 70001",
    "say 1 STDOUT 41 100",
    "say 1 stdout  100",
    "end 1 stdout",
    "end 1 stderr 70001",
    "end 1 stdout 8 8",
    "owed",
    "owed 70000",
    "owed 70001",
    "owed -",
    "put - - 70000",
    "put - - 70001",
    "put - -",
    "put a - 10",
    "finish 1 4294967296 32",
    "finish 1 18446744073709551615 32",
    "finish 1 0",
    "finish 1 0 70001",
    "active 1",
    "active ",
    "area",
    "area 65536",
    "area -",
    "counts",
    "counts 65536",
    "counts 1 2",
    "counts -",
    "count 1",
    "store 0",
    "reading",
    "reading 1 2 3",
    "reading 1 2 3 12 12",
    "reading 4294967295 0 4294967295 12",
    "reading 4294967296 0 0 12",
    "reading 0 0 4294967296 12",
    "reading 18446744073709551616 0 0 12",
    "reading -1 0 0 12",
    "reading 0 0 -1 12",
    "reading 0 0 0 70000",
    "reading 0 0 0 70001",
    "reading 0 0 0 -",
    "read",
    "read ",
    "read 0",
    "read 0A",
    "read - -",
    "read  -",
    "read 8 00",
    "reads 00",
    "body",
    "body ",
    "body end ",
    "body  end",
    "body new 1",
    "body New",
    "body ends",
    "body start",
    "bodyend",
    "new",
    "correct",
    "correct ",
    "correct - - 0 0",
    "correct 00 01 0 0",
    "correct 000000000000000000 0100000000000000000000000000000000 0",
    "correct 000000000000000000 0100000000000000000000000000000000 0 0 0",
    "correct 000000000000000000  0100000000000000000000000000000000 0 0",
    "correct 000000000000000000 0100000000000000000000000000000000 - 0",
    "correct 000000000000000000 0100000000000000000000000000000000 0 -",
    "correct 00000000000000000A 0100000000000000000000000000000000 0 0",
    "correct 000000000000000000 0100000000000000000000000000000000 0 4294967296",
    "correct 000000000000000000 0100000000000000000000000000000000 -0 4294967295",
    "corrects 000000000000000000 0100000000000000000000000000000000 0 0",
    "correct 000000000000000000 0100000000000000000000000000000000 0 0 ",
    "lend queue",
    "lend queue ",
    "lend queue -1",
    "lend 1 queue",
    "lend Queue 1",
    "queue",
    "queue 1",
    "queue say 1 stdout",
    "queue say 1 stdin 41",
    "queue say 1 stdout 41 100",
    "queue say 65536 stdout 41",
    "queue say 1 stdout 4",
    "queue end 1",
    "queue end 1 stdout 8",
    "queue end 1 data",
    "queue finish 1",
    "queue finish 1 4294967296",
    "queue finish 1 0 32",
    "queue pump 1 520",
    "pump",
    "pump 1",
    "pump 0 70001",
    "pump 18446744073709551616 0",
    "pump 18446744073709551615 70000",
    "waits",
    "waits 65536",
    "numbers 0",
    "poke",
    "poke ",
    "# a remark",
    "what",
    "long",
];

/// What stands behind `poke`, refused for one reason each.
const POKES: [&str; 63] = [
    "open",
    "open 2",
    "open 0 0",
    "open yes",
    "occupied 65536",
    "id 16 1",
    "id 0 65536",
    "id 0",
    "length 16 0",
    "length 0 65536",
    "role 0 0",
    "role 0 4",
    "role 16 1",
    "keep 0 2",
    "keep 0 01",
    "role 0 01",
    "out_ended 0 00",
    "turn 0 abort",
    "turn 0 Params",
    "turn 16 done",
    "spent 0 dead",
    "spent 0 0",
    "out_ended 0 2",
    "err_used 16 0",
    "err_ended 0",
    "out-ended 0 1",
    "shown 0 stdin",
    "shown 0 stdin 4294967296",
    "shown 0 data 18446744073709551615",
    "shown 16 data 0",
    "shown 0 params 0",
    "shown 0 stdout 0",
    "shown 0 data -",
    "shown 0 0",
    "held -",
    "held 18446744073709551616",
    "header",
    "header 010500010000000000",
    "header 01050",
    "target",
    "target begin",
    "target begin 65536",
    "target query 0",
    "target skip 0",
    "target params",
    "target params 256",
    "target stdout 0",
    "content 18446744073709551616",
    "padding 99999999999999999999",
    "gathered x",
    "byte 0 256",
    "byte 0",
    "number 0",
    "number 0 65536",
    "number 0 0 0",
    "mark 0 256",
    "mark 0",
    "marks 0 0",
    "queue 0 256",
    "queue 0",
    "queue - 0",
    "field 0 0",
    "id  0 1",
];

impl Draft {
    pub(super) fn odd_lines(&mut self) {
        for _ in 0..self.random.within(3, 12) {
            match self.random.below(60) {
                0..=32 => {
                    let line = self.random.pick(&LINES);
                    self.line(line);
                }
                33..=47 => {
                    let line = self.random.pick(&POKES);
                    self.line(format!("poke {line}"));
                }
                48 => self.store_limit(),
                49 => self.queue_limit(),
                50..=57 => self.damaged_line(),
                _ if self.random.one_in(10) => self.greatest_read(),
                _ => self.greatest_line(),
            }
        }
        self.line(format!("lend {STORE}"));
        self.line(format!("lend queue {QUEUE}"));
        if self.random.one_in(40) {
            let body = "00".repeat(513);
            self.line(format!("poke body {body}"));
        }
    }

    /// Numbers that the size of the store limits: the greatest, its neighbours, and with zeros before them.
    fn store_limit(&mut self) {
        let commands = [("lend", WHOLE_STORE, ""), ("poke byte", STORE - 1, " 0")];
        let (command, greatest, after) = self.random.pick(&commands);
        let n = greatest - 1 + self.random.index(3);
        let digits = self.random.pick(&[1, 1, 20, 21]);
        self.line(format!("{command} {n:0digits$}{after}"));
    }

    /// An earlier line of this script with one byte changed, taken out or put in.
    fn damaged_line(&mut self) {
        let mut line = loop {
            let lines = &self.script.lines;
            if lines.is_empty() {
                return;
            }
            let i = self.random.index(lines.len());
            if self.script.lines[i].len() < 2_000 {
                break self.script.lines[i].clone();
            }
        };
        // A poke that a change of one byte turns into another may break the rule on bodies.
        if line.starts_with(b"poke ") || line.is_empty() {
            return;
        }
        let at = self.random.index(line.len());
        let byte = match self.random.below(6) {
            0 => b' ',
            1 => 0,
            2 => 0xff,
            3 => b'-',
            4 => b'9',
            _ => b'a' + self.random.byte() % 26,
        };
        match self.random.below(3) {
            0 => line[at] = byte,
            1 => {
                line.remove(at);
            }
            _ => line.insert(at, byte),
        }
        self.line(line);
    }

    /// The most bytes that can be read at once, as readings whose text is the longest for their bytes.
    fn greatest_read(&mut self) {
        self.line("body new");
        let bytes = (LONGEST_LINE - "read ".len()) / 2;
        self.line(format!("read {}", "7f".repeat(bytes)));
        self.line("body end");
    }

    /// A line of the greatest length, one that passes it by a character, and one that passes it by much.
    fn greatest_line(&mut self) {
        let length = LONGEST_LINE + self.random.pick(&[0, 0, 1, 1, 2, 140_000]);
        let (before, after) = match self.random.below(4) {
            0 => ("value 1 ", " -"),
            1 => ("put - ", " 70000"),
            2 => self.random.pick(&[
                ("queue say 10 stdout ", ""),
                ("step ", ""),
                ("next ", ""),
                ("feed 4096 ", ""),
                ("read ", ""),
                ("correct ", " - 0 0"),
            ]),
            _ => ("say 10 stdout ", " 70000"),
        };
        let middle = length - before.len() - after.len();
        self.line(format!("{before}{}{after}", "0".repeat(middle)));
    }
}

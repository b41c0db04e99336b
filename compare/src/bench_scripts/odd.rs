//! Lines that are no commands, numbers at their limits, lines at the greatest length.

use super::Draft;
use crate::console::LONGEST_LINE;

/// Whole lines: what is almost a command, and commands at the limits of their numbers.
const LINES: [&str; 100] = [
    "",
    " ",
    "-",
    "start ",
    " start",
    "start start",
    "Start",
    "starting",
    "\tstart",
    "start\r",
    "open",
    "open ",
    "open 1 1 keep",
    "open 1 1 keep 16 16",
    "open 1 keep 16",
    "open 1 1 Keep 16",
    "open 1 1 1 16",
    "open 1 1 0 16",
    "open 1 responder keep 16",
    "open 65536 1 keep 16",
    "open 1 65536 keep 16",
    "open 65535 65535 drop 70000",
    "open 1 1 keep 70001",
    "open 00000000000000000001 01 drop 0016",
    "open 000000000000000000001 1 drop 16",
    "open -1 1 keep 16",
    "open 1 1  keep 16",
    "opened ",
    "opened 1",
    "Opened",
    "pair",
    "pair 1 - -",
    "pair 1 - 16",
    "pair 1 - - 70001",
    "pair 1 - - -",
    "pair 65536 - - 16",
    "pair 1 4 - 16",
    "pair 1 AB - 16",
    "pair 1 - ab16",
    "pair 1 -- - 16",
    "pair 1 -  16",
    "pair 1 0",
    "write 1 stdin -",
    "write 1 stdin - 70001",
    "write 1 params - 16",
    "write 1 stdout - 16",
    "write 1 Stdin - 16",
    "write 65536 stdin - 16",
    "write 1 stdin 0 16",
    "write 1 stdin 0A 16",
    "write 1 data - - 16",
    "write stdin 1 - 16",
    "write 1 stdin 16",
    "end 1 params",
    "end 1 params 70001",
    "end 1 stdout 16",
    "end 1 stderr 16",
    "end 1 Params 16",
    "end 65536 params 16",
    "end 1 params 8 8",
    "end params 8",
    "abort",
    "abort 1",
    "abort 1 70001",
    "abort 65536 8",
    "abort 1 8 8",
    "abort - 8",
    "ask",
    "ask -",
    "ask - 70001",
    "ask 0 16",
    "ask 0000 0000 16",
    "ask - -",
    "step",
    "step ",
    "step 0",
    "step 0G",
    "step 0A",
    "step --",
    "step - -",
    "step  -",
    "feed",
    "feed 1",
    "feed 0 01",
    "feed 65536 -",
    "feed 65537 01",
    "feed 1 0A",
    "feed 1 - -",
    "values ",
    "values -",
    "values 00",
    "Values",
    "wait",
    "wait 1",
    "wait 65536",
    "hang",
    "hang 1",
    "what",
    "long",
    "# a remark",
];

/// Commands of the console that are none here.
const CONSOLES: [&str; 14] = [
    "lend 65536",
    "next 00",
    "next -",
    "say 1 stdout - 16",
    "owed 16",
    "put - - 16",
    "finish 1 0 32",
    "active",
    "area 1",
    "counts 1",
    "store",
    "walk 1",
    "value 1 - -",
    "body new",
];

/// What stands behind `poke`, refused for one reason each.
const POKES: [&str; 58] = [
    "",
    "open",
    "open 2",
    "open 0 0",
    "open yes",
    "occupied 65536",
    "occupied",
    "id 16 1",
    "id 0 65536",
    "id 0",
    "length 16 0",
    "length 0 65536",
    "role 0 0",
    "role 0 4",
    "role 0 01",
    "role 16 1",
    "keep 0 2",
    "keep 0 01",
    "keep 0 keep",
    "turn 0 abort",
    "turn 0 Params",
    "turn 16 done",
    "turn 0 stdout",
    "spent 0 dead",
    "spent 0 0",
    "out_ended 0 2",
    "out_ended 0 00",
    "err_ended 0",
    "err_ended 16 0",
    "out-ended 0 1",
    "err_used 0 0",
    "shown 0 stdin 0",
    "held -",
    "held 18446744073709551616",
    "header",
    "header 010600010000000000",
    "header 01060",
    "target",
    "target begin 1",
    "target query",
    "target params 0",
    "target stdin 0",
    "target data 0",
    "target skip 0",
    "target stdout",
    "target stdout 256",
    "target stderr -",
    "target end",
    "target end 256",
    "target values 0",
    "target unknown 0",
    "content 18446744073709551616",
    "padding 99999999999999999999",
    "gathered x",
    "body 000000000000000000",
    "body 0",
    "byte 0 0",
    "id  0 1",
];

impl Draft {
    pub(super) fn odd_lines(&mut self) {
        for _ in 0..self.random.within(3, 12) {
            match self.random.below(60) {
                0..=29 => {
                    let line = self.random.pick(&LINES);
                    self.line(line);
                }
                30..=33 => {
                    let line = self.random.pick(&CONSOLES);
                    self.line(line);
                }
                34..=47 => {
                    let line = self.random.pick(&POKES);
                    self.line(format!("poke {line}"));
                }
                48..=57 => self.damaged_line(),
                _ => self.greatest_line(),
            }
        }
        if self.random.one_in(40) {
            let values = "00".repeat(513);
            self.line(format!("poke values {values}"));
        }
    }

    /// An earlier line of this script with one byte changed, taken out or put in.
    fn damaged_line(&mut self) {
        let mut line = loop {
            let lines = &self.script.lines;
            if lines.is_empty() {
                return;
            }
            let i = self.random.index(lines.len());
            if self.script.lines[i].len() < 2_000 {
                break self.script.lines[i].clone();
            }
        };
        // A poke that a change of one byte turns into another may break the rule on bodies.
        if line.starts_with(b"poke ") || line.is_empty() {
            return;
        }
        let at = self.random.index(line.len());
        let byte = match self.random.below(6) {
            0 => b' ',
            1 => 0,
            2 => 0xff,
            3 => b'-',
            4 => b'9',
            _ => b'a' + self.random.byte() % 26,
        };
        match self.random.below(3) {
            0 => line[at] = byte,
            1 => {
                line.remove(at);
            }
            _ => line.insert(at, byte),
        }
        self.line(line);
    }

    /// A line of the greatest length, one that passes it by a character, and one that passes it by much.
    fn greatest_line(&mut self) {
        let length = LONGEST_LINE + self.random.pick(&[0, 0, 1, 1, 2, 140_000]);
        let id = self.some_id();
        let (before, after) = match self.random.below(6) {
            0 => (format!("pair {id} - "), " 70000"),
            1 => (format!("write {id} stdin "), " 70000"),
            2 => ("ask ".into(), " 70000"),
            3 => ("step ".into(), ""),
            4 => ("feed 4096 ".into(), ""),
            _ => ("poke values ".into(), ""),
        };
        let middle = length - before.len() - after.len();
        self.line(format!("{before}{}{after}", "0".repeat(middle)));
    }
}

//! Both receivers on the same bytes.
//!
//!     bench time ROUNDS FILE             times; FILE is written, and read again in pieces
//!     bench read SYMBOL PIECE            one receiver that reads standard input, a file: nanoseconds and what it told
//!     bench count SYMBOL PIECE TOTAL     one receiver once, for callgrind; prints the numbers of steps and of events
//!     bench params SYMBOL LIST 0|1       one request's parameters once, 1: with the record that ends them
//!     bench agree STREAMS                random connections: what is told, and the store that is left; and random bodies
//!                                        of readings
//!     bench readings ROUNDS              times of the readers of readings
//!     bench readings count SYMBOL TOTAL  one of them once, for callgrind; prints the numbers of readings and of bytes
//!     bench readings symbols             what they are called, and by callgrind
//!     bench queue ROUNDS                 times without a queue and with one
//!     bench pump ROUNDS                  times of output through the pump and straight
//!     bench pump count SYMBOL REQUESTS BYTES ROUNDS
//!                                        one of the two once, for callgrind; prints the numbers of content bytes, of
//!                                        records and of bytes written
//!     bench pump cases                   the requests and the bytes at a time that are measured

mod input;
mod lists;
mod pump;
mod reading;
mod readings;
mod receivers;
mod tables;
mod timing;
mod waiting;

use compare::scripts::stream;
use compare::state::STORE;
use receivers::{of_symbol, BY_EVENT, BY_STEP};
use std::io;
use std::path::Path;
use std::process::ExitCode;

fn main() -> ExitCode {
    let words: Vec<String> = std::env::args().skip(1).collect();
    let words: Vec<&str> = words.iter().map(String::as_str).collect();
    let done = match words[..] {
        ["time", rounds, file] => match rounds.parse() {
            Ok(rounds) => worked(timing::table(rounds, Path::new(file))),
            Err(_) => false,
        },
        ["read", symbol, piece] => match piece.parse() {
            Ok(piece) => worked(reading::child(symbol, piece)),
            Err(_) => false,
        },
        ["count", symbol, piece, total] => match (piece.parse(), total.parse()) {
            (Ok(piece), Ok(total)) => count(symbol, piece, total),
            _ => false,
        },
        ["params", symbol, list, ended] => params(symbol, list, ended == "1"),
        ["agree", streams] => streams.parse().is_ok_and(|streams| {
            agree(streams) && waiting::agree(streams) && readings::agree(streams)
        }),
        ["readings", ref words @ ..] => of_readings(words),
        ["queue", rounds] => match rounds.parse() {
            Ok(rounds) => worked(waiting::table(rounds)),
            Err(_) => false,
        },
        ["pump", ref words @ ..] => of_pump(words),
        _ => false,
    };
    if done {
        ExitCode::SUCCESS
    } else {
        eprintln!(
            "bench time ROUNDS FILE | bench read SYMBOL PIECE | bench count SYMBOL PIECE TOTAL \
             | bench params SYMBOL LIST 0|1 | bench agree STREAMS \
             | bench readings ROUNDS | bench readings count SYMBOL TOTAL | bench readings symbols \
             | bench queue ROUNDS | bench pump ROUNDS | bench pump count SYMBOL REQUESTS BYTES ROUNDS \
             | bench pump cases"
        );
        ExitCode::FAILURE
    }
}

fn of_readings(words: &[&str]) -> bool {
    match *words {
        ["count", symbol, total] => {
            let total = total.parse();
            total.is_ok_and(|total| readings::count(symbol, total))
        }
        ["symbols"] => readings::symbols(),
        [rounds] => {
            let rounds = rounds.parse();
            rounds.is_ok_and(|rounds| worked(readings::table(rounds)))
        }
        _ => false,
    }
}

fn of_pump(words: &[&str]) -> bool {
    match *words {
        ["count", symbol, requests, chunk, rounds] => {
            match (requests.parse(), chunk.parse(), rounds.parse()) {
                (Ok(requests), Ok(chunk), Ok(rounds)) => {
                    pump::count(symbol, requests, chunk, rounds)
                }
                _ => false,
            }
        }
        ["cases"] => pump::cases(),
        [rounds] => {
            let rounds = rounds.parse();
            rounds.is_ok_and(|rounds| worked(pump::table(rounds)))
        }
        _ => false,
    }
}

/// Says what went wrong, if something did.
fn worked(done: io::Result<()>) -> bool {
    if let Err(error) = &done {
        eprintln!("bench: {error}");
    }
    done.is_ok()
}

fn count(symbol: &str, piece: usize, total: usize) -> bool {
    let Some(receiver) = of_symbol(symbol) else {
        return false;
    };
    let bytes = input::input(total);
    let sum = (receiver.digest)(&mut vec![0; STORE], &bytes, piece);
    let (steps, events) = (input::steps(&bytes, piece), input::events(&bytes, piece));
    println!("{steps} {events} {sum}");
    true
}

fn params(symbol: &str, list: &str, ended: bool) -> bool {
    let (Some(receiver), Some(bytes)) = (of_symbol(symbol), lists::request(list, ended)) else {
        return false;
    };
    let sum = (receiver.digest)(&mut vec![0; STORE], &bytes, bytes.len());
    println!("{sum}");
    true
}

/// Feeds random connections to all receivers, in pieces of several sizes. No calls come in between.
fn agree(streams: u64) -> bool {
    let mut fed = 0;
    for seed in 0..streams {
        let bytes = stream(seed);
        for piece in [1, 7, 8, 9, 100, 65_536] {
            let told = [BY_STEP, BY_EVENT].map(|receivers| {
                receivers.map(|receiver| {
                    let mut store = vec![0xcc; STORE];
                    let sum = (receiver.digest)(&mut store, &bytes, piece);
                    (sum, store)
                })
            });
            let alike = told.iter().all(|[proved, plain, unchecked]| {
                // By step and by event the digests differ, but the store is the same.
                proved == plain && plain == unchecked && plain.1 == told[0][1].1
            });
            if !alike {
                println!("stream {seed} in pieces of {piece}: the receivers differ");
                return false;
            }
            fed += bytes.len();
        }
    }
    println!(
        "{streams} connections in pieces of six sizes, {fed} bytes, by step and by event: \
         all told the same and left the same store"
    );
    true
}

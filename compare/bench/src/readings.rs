//! Readers of readings on one long body in memory: the proved one, where its library is there, and the ordinary one.

use crate::timing::repeat;
use compare::digest::readings_digest;
use compare::random::Random;
use compare::readings::{write, Reading, COLDEST, READING, WARMEST};
use compare::scripts::body;
use std::hint::black_box;
use std::io;
use std::time::{Duration, Instant};

/// Bytes of the body, and of a piece of it.
const TOTAL: usize = 64 << 20;
const PIECE: usize = 65_536;

#[cfg(proved_readings)]
#[link(name = "export_readings", kind = "static")]
extern "C" {
    fn fastcgi_readings_digest(input: *const u8, input_length: usize, piece: usize) -> u64;
}

#[cfg(proved_readings)]
fn proved_readings_digest(input: &[u8], piece: usize) -> u64 {
    // The library takes a slice as a pointer and a length, and does not keep it.
    unsafe { fastcgi_readings_digest(input.as_ptr(), input.len(), piece) }
}

#[inline(never)]
#[no_mangle]
pub fn plain_readings_digest(input: &[u8], piece: usize) -> u64 {
    readings_digest(input, piece)
}

struct Digest {
    name: &'static str,
    /// The function that callgrind counts.
    symbol: &'static str,
    digest: fn(&[u8], usize) -> u64,
}

const READERS: &[Digest] = &[
    #[cfg(proved_readings)]
    Digest {
        name: "proved",
        symbol: "fastcgi_readings_digest",
        digest: proved_readings_digest,
    },
    Digest {
        name: "plain",
        symbol: "plain_readings_digest",
        digest: plain_readings_digest,
    },
];

/// A body of at most so many bytes, and its number of readings: log numbers one after another up to 999,999 and again
/// from 0, any temperature, raw counts up to 65,535.
fn readings(total: usize) -> (Vec<u8>, usize) {
    let (mut random, mut bytes, mut count) = (Random::new(1), vec![0; total], 0);
    let mut at = 0;
    while at + READING <= total {
        let reading = Reading {
            log: (count % 1_000_000) as u32,
            tenths: random.within(0, (WARMEST - COLDEST) as usize) as i32 + COLDEST,
            raw: random.below(65_536) as u32,
        };
        at += write(reading, &mut bytes[at..]).expect("it is in range and fits");
        count += 1;
    }
    bytes.truncate(at);
    (bytes, count)
}

/// The best times of several rounds in which the readers take turns.
pub fn table(rounds: usize) -> io::Result<()> {
    let (bytes, count) = readings(TOTAL);
    let mut best = vec![Duration::MAX; READERS.len()];
    let mut sums = Vec::new();
    for _ in 0..rounds {
        for (reader, best) in READERS.iter().zip(&mut best) {
            repeat(best, || {
                let begun = Instant::now();
                let sum = (reader.digest)(black_box(&bytes), PIECE);
                let time = begun.elapsed();
                sums.push(sum);
                Ok(time)
            })?;
        }
    }
    assert!(
        sums.iter().all(|&sum| sum == sums[0] && sum != 0),
        "the readers tell different things"
    );
    println!(
        "Nanoseconds of a reader, {count} readings of {} bytes in pieces of 64 KiB:\n",
        bytes.len()
    );
    println!("| reader | a reading | a byte |");
    println!("|---|---|---|");
    for (reader, best) in READERS.iter().zip(best) {
        let each = |n: usize| best.as_secs_f64() * 1e9 / n as f64;
        let name = reader.name;
        println!("| {name} | {:.2} | {:.2} |", each(count), each(bytes.len()));
    }
    Ok(())
}

/// One reader once, for callgrind; prints the numbers of readings and of bytes. False where there is no such reader.
pub fn count(symbol: &str, total: usize) -> bool {
    let Some(reader) = READERS.iter().find(|reader| reader.symbol == symbol) else {
        return false;
    };
    let (bytes, count) = readings(total);
    let sum = (reader.digest)(&bytes, PIECE);
    println!("{count} {} {sum}", bytes.len());
    true
}

/// What they are called, and by callgrind.
pub fn symbols() -> bool {
    for reader in READERS {
        println!("{} {}", reader.name, reader.symbol);
    }
    true
}

/// Random bodies, whole and damaged: all readers tell the same.
pub fn agree(bodies: u64) -> bool {
    for seed in 0..bodies {
        let bytes = body(seed);
        for piece in [1, 2, 3, 5, 64, 65_536] {
            let plain = readings_digest(&bytes, piece);
            let same = |reader: &Digest| (reader.digest)(&bytes, piece) == plain;
            if !READERS.iter().all(same) {
                println!("body {seed} in pieces of {piece}: the readers differ");
                return false;
            }
        }
    }
    if READERS.len() > 1 {
        println!("{bodies} bodies of readings in pieces of six sizes: both readers told the same");
    }
    true
}

//! Receivers that read standard input piece by piece and go through each piece by `next_event`. The proved one reads
//! descriptor 0 itself, so each is measured in a process of its own, whose standard input is the file.

use crate::timing::repeat;
use compare::digest::reading_digest;
use compare::state::{Connection, STORE};
use std::fs::File;
use std::hint::black_box;
use std::io::{self, Read, Seek};
use std::mem::ManuallyDrop;
use std::os::fd::FromRawFd;
use std::path::Path;
use std::process::{Command, Stdio};
use std::time::{Duration, Instant};

#[link(name = "export_reading", kind = "static")]
extern "C" {
    fn fastcgi_reading_digest(
        store: *mut u8,
        store_length: usize,
        buffer: *mut u8,
        buffer_length: usize,
    ) -> u64;
}

/// Descriptor 0 without the buffer of `std::io::stdin`, so that each read is one of the system's. It stays open.
fn standard_input() -> ManuallyDrop<File> {
    // Nobody closes it, as long as the file is never dropped.
    ManuallyDrop::new(unsafe { File::from_raw_fd(0) })
}

#[inline(never)]
#[no_mangle]
pub fn plain_reading_digest(store: &mut [u8], buffer: &mut [u8]) -> u64 {
    let call = Connection::next_once;
    reading_digest(call, store, buffer, &*standard_input())
}

#[inline(never)]
#[no_mangle]
pub fn unchecked_reading_digest(store: &mut [u8], buffer: &mut [u8]) -> u64 {
    let call = Connection::next_with::<false>;
    reading_digest(call, store, buffer, &*standard_input())
}

fn proved_reading_digest(store: &mut [u8], buffer: &mut [u8]) -> u64 {
    // The library takes two slices, each as a pointer and a length, and keeps neither.
    unsafe {
        fastcgi_reading_digest(
            store.as_mut_ptr(),
            store.len(),
            buffer.as_mut_ptr(),
            buffer.len(),
        )
    }
}

/// The reads alone; answers how many bytes they gave.
fn reads_alone(_: &mut [u8], buffer: &mut [u8]) -> u64 {
    let (mut input, mut all) = (standard_input(), 0);
    loop {
        match input.read(black_box(buffer)) {
            Ok(n) if n > 0 => all += n as u64,
            _ => return all,
        }
    }
}

struct Reader {
    symbol: &'static str,
    digest: fn(&mut [u8], &mut [u8]) -> u64,
}

/// The receivers in the order of `receivers`, and then the reads alone.
const READERS: [Reader; 4] = [
    Reader {
        symbol: "fastcgi_reading_digest",
        digest: proved_reading_digest,
    },
    Reader {
        symbol: "plain_reading_digest",
        digest: plain_reading_digest,
    },
    Reader {
        symbol: "unchecked_reading_digest",
        digest: unchecked_reading_digest,
    },
    Reader {
        symbol: "reads_alone",
        digest: reads_alone,
    },
];

/// In the process of its own: prints the best time in nanoseconds, and the digest. The file is read from its start each
/// time, into buffers that are made before.
pub fn child(symbol: &str, piece: usize) -> io::Result<()> {
    let reader = READERS.iter().find(|reader| reader.symbol == symbol);
    let reader = reader.ok_or_else(|| io::Error::other("no such reader"))?;
    let (mut store, mut buffer) = (vec![1; STORE], vec![1; piece]);
    let (mut best, mut sums) = (Duration::MAX, Vec::new());
    repeat(&mut best, || {
        standard_input().rewind()?;
        let begun = Instant::now();
        let sum = (reader.digest)(black_box(&mut store), black_box(&mut buffer));
        let time = begun.elapsed();
        sums.push(sum);
        Ok(time)
    })?;
    if sums.iter().any(|&sum| sum != sums[0]) {
        return Err(io::Error::other("the digest is another each time"));
    }
    println!("{} {}", best.as_nanos(), sums[0]);
    Ok(())
}

/// One round of each: its time, where that is better than the best so far; and what it told.
pub fn round(file: &Path, piece: usize, best: &mut [Duration; 4]) -> io::Result<[u64; 4]> {
    let mut sums = [0; 4];
    for ((reader, best), sum) in READERS.iter().zip(best).zip(&mut sums) {
        let (time, told) = measured(reader.symbol, file, piece)?;
        *best = time.min(*best);
        *sum = told;
    }
    Ok(sums)
}

fn measured(symbol: &str, file: &Path, piece: usize) -> io::Result<(Duration, u64)> {
    let child = Command::new(std::env::current_exe()?)
        .args(["read", symbol, &piece.to_string()])
        .stdin(File::open(file)?)
        .stderr(Stdio::inherit())
        .output()?;
    let text = String::from_utf8_lossy(&child.stdout);
    let numbers: Vec<u64> = text.split_whitespace().flat_map(str::parse).collect();
    match (child.status.success(), &numbers[..]) {
        (true, &[time, sum]) => Ok((Duration::from_nanos(time), sum)),
        _ => Err(io::Error::other(format!("{symbol}: it could not be read"))),
    }
}

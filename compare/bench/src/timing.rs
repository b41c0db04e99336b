//! Times, best of several rounds in which the receivers take turns: in memory by step and by event, and with the reads.

use crate::input::{events, input, steps};
use crate::reading;
use crate::receivers::{Receiver, BY_EVENT, BY_STEP};
use crate::tables;
use compare::state::STORE;
use std::fs;
use std::hint::black_box;
use std::io;
use std::path::Path;
use std::time::{Duration, Instant};

/// Piece sizes, and how much content goes through each: byte by byte, 64 MiB would take a minute with the reads.
pub const SIZES: [(usize, usize); 3] = [(65_536, 64 << 20), (100, 64 << 20), (1, 4 << 20)];

/// A round takes at least so long: a receiver that is done sooner goes several times, and the best counts.
const ROUND: Duration = Duration::from_millis(40);

pub struct Row {
    pub piece: usize,
    pub total: usize,
    pub steps: usize,
    pub events: usize,
    /// Of each receiver, over an input in memory.
    pub by_step: [Duration; 3],
    pub by_event: [Duration; 3],
    /// Of each receiver by event, with the reads in between; and of the reads alone.
    pub reading: [Duration; 4],
}

pub fn table(rounds: usize, file: &Path) -> io::Result<()> {
    let mut rows = Vec::new();
    for (piece, total) in SIZES {
        rows.push(measure(piece, total, rounds, file)?);
    }
    tables::print(&rows);
    Ok(())
}

fn measure(piece: usize, total: usize, rounds: usize, file: &Path) -> io::Result<Row> {
    let bytes = input(total);
    fs::write(file, &bytes)?;
    let mut row = Row {
        piece,
        total,
        steps: steps(&bytes, piece),
        events: events(&bytes, piece),
        by_step: [Duration::MAX; 3],
        by_event: [Duration::MAX; 3],
        reading: [Duration::MAX; 4],
    };
    let (mut by_step, mut by_event) = (Vec::new(), Vec::new());
    for _ in 0..rounds {
        by_step.extend(round(&BY_STEP, &bytes, piece, &mut row.by_step)?);
        by_event.extend(round(&BY_EVENT, &bytes, piece, &mut row.by_event)?);
        let [told @ .., read] = reading::round(file, piece, &mut row.reading)?;
        by_event.extend(told);
        assert_eq!(read, bytes.len() as u64, "the file was not read to its end");
    }
    told_alike(&by_step);
    told_alike(&by_event);
    Ok(row)
}

/// Stops where these digests of one input differ.
pub fn told_alike(sums: &[u64]) {
    assert!(
        sums.iter().all(|&sum| sum == sums[0] && sum != 0),
        "the receivers tell different things"
    );
}

/// One round of each receiver: its time, where that is better than the best so far; and what it told.
pub fn round(
    receivers: &[Receiver; 3],
    bytes: &[u8],
    piece: usize,
    best: &mut [Duration; 3],
) -> io::Result<Vec<u64>> {
    let (mut store, mut sums) = (vec![0; STORE], Vec::new());
    for (receiver, best) in receivers.iter().zip(best) {
        repeat(best, || {
            let begun = Instant::now();
            let sum = (receiver.digest)(black_box(&mut store), black_box(bytes), piece);
            let time = begun.elapsed();
            sums.push(sum);
            Ok(time)
        })?;
    }
    Ok(sums)
}

/// One round: the best time of as many runs as fit.
pub fn repeat(
    best: &mut Duration,
    mut run: impl FnMut() -> io::Result<Duration>,
) -> io::Result<()> {
    let begun = Instant::now();
    loop {
        *best = run()?.min(*best);
        if begun.elapsed() >= ROUND {
            return Ok(());
        }
    }
}

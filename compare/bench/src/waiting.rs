//! The proved receiver with a queue, by `step` and by `next_event`: while nothing waits, and while eight requests have
//! something waiting. Its calls tell what those without a queue tell.

use crate::input::{events, input, opening, steps, OPENING};
use crate::receivers::{proved_digest, proved_next_digest, Receiver};
use crate::tables::{each, size};
use crate::timing::{round, told_alike, SIZES};
use compare::queue::NUMBERS;
use compare::scripts::stream;
use compare::state::STORE;
use std::io;
use std::time::Duration;

/// A library's function: a whole input, and what waits once its first `opening` bytes are read.
type Digest = unsafe extern "C" fn(
    store: *mut u8,
    store_length: usize,
    numbers: *const u16,
    numbers_length: usize,
    input: *const u8,
    input_length: usize,
    piece: usize,
    opening: usize,
) -> u64;

#[link(name = "export_queue", kind = "static")]
#[link(name = "export_queue_next", kind = "static")]
extern "C" {
    fn fastcgi_queue_digest(
        store: *mut u8,
        store_length: usize,
        numbers: *const u16,
        numbers_length: usize,
        input: *const u8,
        input_length: usize,
        piece: usize,
        opening: usize,
    ) -> u64;

    fn fastcgi_queue_next_digest(
        store: *mut u8,
        store_length: usize,
        numbers: *const u16,
        numbers_length: usize,
        input: *const u8,
        input_length: usize,
        piece: usize,
        opening: usize,
    ) -> u64;
}

/// The numbers while nothing waits.
const NOTHING: [u16; NUMBERS] = [0; NUMBERS];

/// The numbers while 100 data bytes wait in each of the first eight slots.
const EIGHT: [u16; NUMBERS] = {
    let mut numbers = NOTHING;
    let mut slot = 0;
    while slot < 8 {
        numbers[slot] = 99;
        slot += 1;
    }
    // The word that has a bit for each slot in which data waits.
    numbers[48] = 255;
    numbers
};

#[inline(always)]
fn with(
    digest: Digest,
    numbers: &[u16; NUMBERS],
    store: &mut [u8],
    input: &[u8],
    piece: usize,
) -> u64 {
    // The library takes three slices, each as a pointer and a length, and keeps none.
    unsafe {
        digest(
            store.as_mut_ptr(),
            store.len(),
            numbers.as_ptr(),
            numbers.len(),
            input.as_ptr(),
            input.len(),
            piece,
            OPENING,
        )
    }
}

#[inline(never)]
#[no_mangle]
pub fn queue_digest(store: &mut [u8], input: &[u8], piece: usize) -> u64 {
    with(fastcgi_queue_digest, &NOTHING, store, input, piece)
}

#[inline(never)]
#[no_mangle]
pub fn waiting_digest(store: &mut [u8], input: &[u8], piece: usize) -> u64 {
    with(fastcgi_queue_digest, &EIGHT, store, input, piece)
}

#[inline(never)]
#[no_mangle]
pub fn queue_next_digest(store: &mut [u8], input: &[u8], piece: usize) -> u64 {
    with(fastcgi_queue_next_digest, &NOTHING, store, input, piece)
}

#[inline(never)]
#[no_mangle]
pub fn waiting_next_digest(store: &mut [u8], input: &[u8], piece: usize) -> u64 {
    with(fastcgi_queue_next_digest, &EIGHT, store, input, piece)
}

/// By `step`: without a queue, with one in which nothing waits, with one in which eight requests wait. Those below are
/// in the same order.
pub const BY_STEP: [Receiver; 3] = [
    Receiver {
        symbol: "fastcgi_digest",
        digest: proved_digest,
    },
    Receiver {
        symbol: "queue_digest",
        digest: queue_digest,
    },
    Receiver {
        symbol: "waiting_digest",
        digest: waiting_digest,
    },
];

/// By `next_event`.
pub const BY_EVENT: [Receiver; 3] = [
    Receiver {
        symbol: "fastcgi_next_digest",
        digest: proved_next_digest,
    },
    Receiver {
        symbol: "queue_next_digest",
        digest: queue_next_digest,
    },
    Receiver {
        symbol: "waiting_next_digest",
        digest: waiting_next_digest,
    },
];

struct Row {
    piece: usize,
    total: usize,
    steps: usize,
    events: usize,
    by_step: [Duration; 3],
    by_event: [Duration; 3],
}

fn measure(piece: usize, total: usize, rounds: usize) -> io::Result<Row> {
    let bytes = input(total);
    let mut row = Row {
        piece,
        total,
        steps: steps(&bytes, piece),
        events: events(&bytes, piece),
        by_step: [Duration::MAX; 3],
        by_event: [Duration::MAX; 3],
    };
    let (mut by_step, mut by_event) = (Vec::new(), Vec::new());
    for _ in 0..rounds {
        by_step.extend(round(&BY_STEP, &bytes, piece, &mut row.by_step)?);
        by_event.extend(round(&BY_EVENT, &bytes, piece, &mut row.by_event)?);
    }
    told_alike(&by_step);
    told_alike(&by_event);
    Ok(row)
}

/// What both forms with a queue take, compared with the one without.
fn ratios([without, nothing, eight]: [Duration; 3]) -> String {
    let ratio = |with: Duration| with.as_secs_f64() / without.as_secs_f64();
    format!("{:.2} | {:.2}", ratio(nothing), ratio(eight))
}

/// The best times of several rounds in which the receivers take turns, over the inputs of the other tables.
pub fn table(rounds: usize) -> io::Result<()> {
    let mut rows = Vec::new();
    for (piece, total) in SIZES {
        rows.push(measure(piece, total, rounds)?);
    }
    println!("Nanoseconds a step, by `step`, without a queue and with one:\n");
    println!(
        "| pieces of | content | steps | without | nothing waits | eight requests wait \
         | nothing waits to without | eight wait to without |"
    );
    println!("|---|---|---|---|---|---|---|---|");
    for row in &rows {
        println!(
            "| {} | {} MiB | {} | {} | {} |",
            size(row.piece),
            row.total >> 20,
            row.steps,
            each(row.by_step, row.steps),
            ratios(row.by_step)
        );
    }
    println!("\nNanoseconds an event, and a step that it stands for, by `next_event`, likewise:\n");
    println!(
        "| pieces of | events | steps | an event: without | nothing waits | eight requests wait \
         | a step: without | nothing waits | eight requests wait \
         | nothing waits to without | eight wait to without |"
    );
    println!("|---|---|---|---|---|---|---|---|---|---|---|");
    for row in &rows {
        println!(
            "| {} | {} | {} | {} | {} | {} |",
            size(row.piece),
            row.events,
            row.steps,
            each(row.by_event, row.events),
            each(row.by_event, row.steps),
            ratios(row.by_event)
        );
    }
    Ok(())
}

/// Feeds random connections to all of them, in pieces of several sizes. Where eight requests wait, these are opened
/// before, by the server that then sends the rest.
pub fn agree(streams: u64) -> bool {
    for seed in 0..streams {
        let rest = stream(seed);
        // Ids that no random connection uses, so that it opens requests of its own.
        let bytes = [opening(60_000, 8), rest.clone()].concat();
        for piece in [1, 7, 8, 9, 100, 65_536] {
            for [without, nothing, eight] in [BY_STEP, BY_EVENT] {
                let told = |receiver: &Receiver, bytes: &[u8]| {
                    let mut store = vec![0xcc; STORE];
                    ((receiver.digest)(&mut store, bytes, piece), store)
                };
                if told(&without, &rest) != told(&nothing, &rest)
                    || told(&without, &bytes) != told(&eight, &bytes)
                {
                    println!("stream {seed} in pieces of {piece}: with a queue it differs");
                    return false;
                }
            }
        }
    }
    println!(
        "{streams} connections in pieces of six sizes, by step and by event: with a queue, nothing or eight requests \
         waiting, the same was told and the same store left"
    );
    true
}

//! Output through the queue and straight: in each round every request says a chunk on STDOUT. It comes to wait, and
//! turns of the pump write it out; or it is written at once.

use crate::input::{opening, stdin_ends};
use crate::timing::repeat;
use compare::queue::QUEUE;
use compare::state::STORE;
use compare::wire::{kind, Header, HEADER};
use std::hint::black_box;
use std::io;
use std::time::{Duration, Instant};

/// The buffer that is written to: 126 records of the pump.
const OUT: usize = 65_535;

/// Content bytes of a measured run.
const TOTAL: usize = 16 << 20;

#[link(name = "export_pump", kind = "static")]
#[link(name = "export_straight", kind = "static")]
extern "C" {
    fn fastcgi_pump_digest(
        store: *mut u8,
        store_length: usize,
        queue: *mut u8,
        queue_length: usize,
        opening: *const u8,
        opening_length: usize,
        requests: u16,
        chunk: *const u8,
        chunk_length: usize,
        rounds: usize,
        out: *mut u8,
        out_length: usize,
        totals: *mut u64,
        totals_length: usize,
    ) -> u64;

    fn fastcgi_straight_digest(
        store: *mut u8,
        store_length: usize,
        opening: *const u8,
        opening_length: usize,
        requests: u16,
        chunk: *const u8,
        chunk_length: usize,
        rounds: usize,
        out: *mut u8,
        out_length: usize,
        totals: *mut u64,
        totals_length: usize,
    ) -> u64;
}

/// What is lent to a run, made once.
struct Lent {
    store: Vec<u8>,
    queue: Vec<u8>,
    out: Vec<u8>,
    /// Bytes of content, and bytes written.
    totals: [u64; 2],
}

impl Lent {
    fn new() -> Lent {
        Lent {
            store: vec![1; STORE],
            queue: vec![1; QUEUE],
            out: vec![1; OUT],
            totals: [0; 2],
        }
    }
}

/// So many requests, each of which says the chunk in every round.
struct Case {
    requests: u16,
    opening: Vec<u8>,
    chunk: Vec<u8>,
}

/// Requests, and bytes at a time.
const CASES: [(u16, usize); 4] = [(8, 100), (8, 512), (8, 1_024), (1, 1_024)];

impl Case {
    /// All input of the requests has ended.
    fn new(requests: u16, chunk: usize) -> Case {
        Case {
            requests,
            opening: [opening(1, requests), stdin_ends(requests)].concat(),
            chunk: (0..chunk).map(|i| (i * 7) as u8).collect(),
        }
    }

    /// Content bytes of a round.
    fn content(&self) -> usize {
        usize::from(self.requests) * self.chunk.len()
    }
}

#[inline(never)]
#[no_mangle]
fn pump_digest(case: &Case, rounds: usize, lent: &mut Lent) -> u64 {
    // The library takes slices, each as a pointer and a length, and keeps none.
    unsafe {
        fastcgi_pump_digest(
            lent.store.as_mut_ptr(),
            lent.store.len(),
            lent.queue.as_mut_ptr(),
            lent.queue.len(),
            case.opening.as_ptr(),
            case.opening.len(),
            case.requests,
            case.chunk.as_ptr(),
            case.chunk.len(),
            rounds,
            lent.out.as_mut_ptr(),
            lent.out.len(),
            lent.totals.as_mut_ptr(),
            lent.totals.len(),
        )
    }
}

#[inline(never)]
#[no_mangle]
fn straight_digest(case: &Case, rounds: usize, lent: &mut Lent) -> u64 {
    // As above.
    unsafe {
        fastcgi_straight_digest(
            lent.store.as_mut_ptr(),
            lent.store.len(),
            case.opening.as_ptr(),
            case.opening.len(),
            case.requests,
            case.chunk.as_ptr(),
            case.chunk.len(),
            rounds,
            lent.out.as_mut_ptr(),
            lent.out.len(),
            lent.totals.as_mut_ptr(),
            lent.totals.len(),
        )
    }
}

struct Way {
    /// The function that callgrind counts.
    symbol: &'static str,
    digest: fn(&Case, usize, &mut Lent) -> u64,
}

/// Through the pump, and straight.
const WAYS: [Way; 2] = [
    Way {
        symbol: "pump_digest",
        digest: pump_digest,
    },
    Way {
        symbol: "straight_digest",
        digest: straight_digest,
    },
];

/// How many records a round wrote. Stops where they do not hold the chunk of every request, or where the totals are not
/// those of so many rounds.
fn records(case: &Case, rounds: usize, lent: &Lent) -> usize {
    let [content, written] = lent.totals.map(|n| n as usize);
    assert_eq!(content, rounds * case.content(), "a call was refused");
    assert_eq!(written % rounds, 0, "rounds wrote different amounts");
    let mut rest = &lent.out[..written / rounds];
    let mut said = vec![Vec::new(); usize::from(case.requests)];
    let mut records = 0;
    while let Some((header, after)) = rest.split_first_chunk::<HEADER>() {
        let header = Header::read(header);
        assert_eq!((header.version, header.kind), (1, kind::STDOUT));
        let (content, after) = after.split_at(header.content.into());
        let (padding, after) = after.split_at(header.padding.into());
        assert!(padding.iter().all(|&byte| byte == 0) && (content.len() + padding.len()) % 8 == 0);
        said[usize::from(header.id) - 1].extend_from_slice(content);
        rest = after;
        records += 1;
    }
    assert!(rest.is_empty() && said.iter().all(|said| *said == case.chunk));
    records
}

struct Row {
    case: Case,
    rounds: usize,
    records: [usize; 2],
    times: [Duration; 2],
}

fn measure(case: Case, rounds: usize) -> io::Result<Row> {
    let mut lent = Lent::new();
    let mut row = Row {
        rounds: TOTAL / case.content(),
        case,
        records: [0; 2],
        times: [Duration::MAX; 2],
    };
    let mut sums = [0; 2];
    for _ in 0..rounds {
        for (k, way) in WAYS.iter().enumerate() {
            // What the other way wrote is not to be taken for its own.
            lent.out.fill(1);
            repeat(&mut row.times[k], || {
                let begun = Instant::now();
                sums[k] = (way.digest)(black_box(&row.case), row.rounds, black_box(&mut lent));
                Ok(begun.elapsed())
            })?;
            row.records[k] = records(&row.case, row.rounds, &lent);
        }
    }
    // Where all of a chunk goes into one record both write the same bytes.
    let [pump, straight] = row.records;
    assert_eq!(
        pump == straight,
        sums[0] == sums[1],
        "they wrote something else"
    );
    Ok(row)
}

/// The best times of several rounds in which both take turns.
pub fn table(rounds: usize) -> io::Result<()> {
    println!("Through the pump and straight, 16 MiB of content:\n");
    println!(
        "| requests | bytes at a time | records: pump | straight | ns a byte: pump | straight \
         | MiB a second: pump | straight | pump to straight |"
    );
    println!("|---|---|---|---|---|---|---|---|---|");
    for (requests, chunk) in CASES {
        let row = measure(Case::new(requests, chunk), rounds)?;
        let bytes = (row.rounds * row.case.content()) as f64;
        let seconds = row.times.map(|time| time.as_secs_f64());
        let [pump, straight] = row.records.map(|n| n * row.rounds);
        let ns = seconds.map(|time| format!("{:.3}", time * 1e9 / bytes));
        let speed = seconds.map(|time| format!("{:.0}", bytes / time / f64::from(1 << 20)));
        println!(
            "| {requests} | {chunk} | {pump} | {straight} | {} | {} | {:.2} |",
            ns.join(" | "),
            speed.join(" | "),
            seconds[0] / seconds[1]
        );
    }
    Ok(())
}

/// One way once, for callgrind; prints the numbers of content bytes, of records and of bytes written. False where there
/// is no such way.
pub fn count(symbol: &str, requests: u16, chunk: usize, rounds: usize) -> bool {
    let Some(way) = WAYS.iter().find(|way| way.symbol == symbol) else {
        return false;
    };
    let (case, mut lent) = (Case::new(requests, chunk), Lent::new());
    let sum = (way.digest)(&case, rounds, &mut lent);
    let [content, written] = lent.totals;
    let records = records(&case, rounds, &lent) * rounds;
    println!("{content} {records} {written} {sum}");
    true
}

/// Requests and bytes at a time of each line of the tables.
pub fn cases() -> bool {
    for (requests, chunk) in CASES {
        println!("{requests} {chunk}");
    }
    true
}

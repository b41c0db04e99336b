//! What a call costs from C and from Rust, beside the direct call inside the library.
//!
//!     bindings-bench count SYMBOL PIECE TOTAL    one way once, for callgrind; prints how many steps and events
//!     bindings-bench agree                       all ways tell the same
//!
//! The input is that of `compare/bench`: eight requests are opened, then STDIN goes to them in turn.

#[path = "../../../compare/bench/src/input.rs"]
#[allow(dead_code)]
mod input;

use std::process::ExitCode;
use yotnaghez::{ffi, Event, Receiver, Refusal, Step};

type Direct = unsafe extern "C" fn(
    store: *mut u8,
    store_len: usize,
    numbers: *const u16,
    numbers_len: usize,
    input: *const u8,
    input_len: usize,
    piece: usize,
    opening: usize,
) -> u64;

type FromC =
    unsafe extern "C" fn(store: *mut u8, input: *const u8, length: usize, piece: usize) -> u64;

#[rustfmt::skip]
extern "C" {
    fn fastcgi_queue_digest(
        store: *mut u8, store_len: usize, numbers: *const u16, numbers_len: usize, input: *const u8, input_len: usize,
        piece: usize, opening: usize,
    ) -> u64;
    fn fastcgi_queue_next_digest(
        store: *mut u8, store_len: usize, numbers: *const u16, numbers_len: usize, input: *const u8, input_len: usize,
        piece: usize, opening: usize,
    ) -> u64;
    fn c_step_digest(store: *mut u8, input: *const u8, length: usize, piece: usize) -> u64;
    fn c_next_digest(store: *mut u8, input: *const u8, length: usize, piece: usize) -> u64;
    fn conn_next_digest(connection: *mut u8, input: *const u8, length: usize, piece: usize) -> u64;
}

/// Nothing waits.
fn direct(call: Direct, input: &[u8], piece: usize) -> u64 {
    let (mut store, numbers) = (vec![0; ffi::STORE], [0; ffi::WAITS]);
    let (at, size) = (store.as_mut_ptr(), store.len());
    // SAFETY: each slice is lent with its length.
    unsafe {
        call(
            at,
            size,
            numbers.as_ptr(),
            numbers.len(),
            input.as_ptr(),
            input.len(),
            piece,
            input::OPENING,
        )
    }
}

/// The memory is that of a whole connection, of which a loop without one takes the store alone.
fn from_c(call: FromC, input: &[u8], piece: usize) -> u64 {
    let mut memory = vec![0u64; 128 * 1024 / 8];
    // SAFETY: the input is lent with its length, and the memory is longer than a connection.
    unsafe {
        call(
            memory.as_mut_ptr().cast(),
            input.as_ptr(),
            input.len(),
            piece,
        )
    }
}

fn weight(event: Option<Event>) -> u64 {
    let packed = |kind: u64, id: u16, what: u8, n: u64| {
        kind + (u64::from(id) << 8) + (u64::from(what) << 24) + (n << 32)
    };
    match event {
        None => 0,
        Some(Event::Open { id, role, keep }) => packed(1, id, role.number(), keep.into()),
        Some(Event::Ready { id, length }) => packed(2, id, 0, length as u64),
        Some(Event::Data { id, stream, bytes }) => {
            packed(3, id, stream.number(), bytes.len() as u64 % 65536)
        }
        Some(Event::End {
            id,
            stream,
            measure,
        }) => packed(
            4,
            id,
            stream.number(),
            u64::from((measure.number() + 3) % 4),
        ),
        Some(_) => panic!("the input tells nothing else"),
    }
}

#[inline(always)]
fn from_rust(
    call: impl for<'p> Fn(&mut Receiver, &'p [u8]) -> Result<Step<'p>, Refusal>,
    input: &[u8],
    piece: usize,
) -> u64 {
    let (mut receiver, mut sum) = (Receiver::new(), 0u64);
    for mut rest in input.chunks(piece) {
        while !rest.is_empty() {
            let step = call(&mut receiver, rest).expect("it stays open");
            rest = &rest[step.used..];
            sum = (sum * 33 + weight(step.event)) % (1 << 56);
        }
    }
    sum
}

#[inline(never)]
#[no_mangle]
pub fn rust_step_digest(input: &[u8], piece: usize) -> u64 {
    from_rust(Receiver::step, input, piece)
}

#[inline(never)]
#[no_mangle]
pub fn rust_next_digest(input: &[u8], piece: usize) -> u64 {
    from_rust(Receiver::next_event, input, piece)
}

/// A way, by the function that callgrind counts.
fn digest(symbol: &str, input: &[u8], piece: usize) -> Option<u64> {
    Some(match symbol {
        "fastcgi_queue_digest" => direct(fastcgi_queue_digest, input, piece),
        "fastcgi_queue_next_digest" => direct(fastcgi_queue_next_digest, input, piece),
        "c_step_digest" => from_c(c_step_digest, input, piece),
        "c_next_digest" => from_c(c_next_digest, input, piece),
        "conn_next_digest" => from_c(conn_next_digest, input, piece),
        "rust_step_digest" => rust_step_digest(input, piece),
        "rust_next_digest" => rust_next_digest(input, piece),
        _ => return None,
    })
}

const BY_STEP: [&str; 3] = ["fastcgi_queue_digest", "c_step_digest", "rust_step_digest"];
const BY_EVENT: [&str; 4] = [
    "fastcgi_queue_next_digest",
    "c_next_digest",
    "conn_next_digest",
    "rust_next_digest",
];

fn agree() -> bool {
    let input = input::input(1 << 20);
    [65_536, 100, 1].iter().all(|&piece| {
        let told = |symbols: &[&str]| {
            let sums: Vec<_> = symbols
                .iter()
                .map(|symbol| digest(symbol, &input, piece))
                .collect();
            sums.iter().all(|sum| *sum == sums[0])
        };
        told(&BY_STEP) && told(&BY_EVENT)
    })
}

fn main() -> ExitCode {
    let words: Vec<String> = std::env::args().skip(1).collect();
    let words: Vec<&str> = words.iter().map(String::as_str).collect();
    match words[..] {
        ["agree"] if agree() => println!("all ways tell the same"),
        ["count", symbol, piece, total] => {
            let (piece, total) = (
                piece.parse().expect("a number"),
                total.parse().expect("a number"),
            );
            let input = input::input(total);
            let Some(sum) = digest(symbol, &input, piece) else {
                return ExitCode::FAILURE;
            };
            println!(
                "{} {} {sum}",
                input::steps(&input, piece),
                input::events(&input, piece)
            );
        }
        _ => return ExitCode::FAILURE,
    }
    ExitCode::SUCCESS
}

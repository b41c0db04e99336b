//! The receivers, each a function that digests a whole input in pieces of one size, by `step` or by `next_event`. They
//! have names of their own, so that callgrind can count their instructions and nothing else.

use crate::waiting;
use compare::digest::digest;
use compare::state::Connection;

#[link(name = "export", kind = "static")]
#[link(name = "export_next", kind = "static")]
extern "C" {
    fn fastcgi_digest(
        store: *mut u8,
        store_length: usize,
        input: *const u8,
        input_length: usize,
        piece: usize,
    ) -> u64;

    fn fastcgi_next_digest(
        store: *mut u8,
        store_length: usize,
        input: *const u8,
        input_length: usize,
        piece: usize,
    ) -> u64;
}

#[inline(never)]
#[no_mangle]
pub fn plain_digest(store: &mut [u8], input: &[u8], piece: usize) -> u64 {
    digest(Connection::step_with::<true>, store, input, piece)
}

#[inline(never)]
#[no_mangle]
pub fn unchecked_digest(store: &mut [u8], input: &[u8], piece: usize) -> u64 {
    digest(Connection::step_with::<false>, store, input, piece)
}

#[inline(never)]
#[no_mangle]
pub fn plain_next_digest(store: &mut [u8], input: &[u8], piece: usize) -> u64 {
    digest(Connection::next_once, store, input, piece)
}

#[inline(never)]
#[no_mangle]
pub fn unchecked_next_digest(store: &mut [u8], input: &[u8], piece: usize) -> u64 {
    digest(Connection::next_with::<false>, store, input, piece)
}

pub fn proved_digest(store: &mut [u8], input: &[u8], piece: usize) -> u64 {
    // The library takes two slices, each as a pointer and a length, and keeps neither.
    unsafe {
        fastcgi_digest(
            store.as_mut_ptr(),
            store.len(),
            input.as_ptr(),
            input.len(),
            piece,
        )
    }
}

pub fn proved_next_digest(store: &mut [u8], input: &[u8], piece: usize) -> u64 {
    // As above.
    unsafe {
        fastcgi_next_digest(
            store.as_mut_ptr(),
            store.len(),
            input.as_ptr(),
            input.len(),
            piece,
        )
    }
}

pub struct Receiver {
    /// The function that callgrind counts.
    pub symbol: &'static str,
    pub digest: fn(&mut [u8], &[u8], usize) -> u64,
}

/// By `step`: proved, plain with row 9, plain without it. Those below are in the same order.
pub const BY_STEP: [Receiver; 3] = [
    Receiver {
        symbol: "fastcgi_digest",
        digest: proved_digest,
    },
    Receiver {
        symbol: "plain_digest",
        digest: plain_digest,
    },
    Receiver {
        symbol: "unchecked_digest",
        digest: unchecked_digest,
    },
];

/// By `next_event`.
pub const BY_EVENT: [Receiver; 3] = [
    Receiver {
        symbol: "fastcgi_next_digest",
        digest: proved_next_digest,
    },
    Receiver {
        symbol: "plain_next_digest",
        digest: plain_next_digest,
    },
    Receiver {
        symbol: "unchecked_next_digest",
        digest: unchecked_next_digest,
    },
];

pub fn of_symbol(symbol: &str) -> Option<&'static Receiver> {
    const ALL: [&[Receiver]; 4] = [&BY_STEP, &BY_EVENT, &waiting::BY_STEP, &waiting::BY_EVENT];
    ALL.into_iter().flatten().find(|r| r.symbol == symbol)
}

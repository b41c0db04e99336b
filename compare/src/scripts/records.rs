//! Records, and what BEGIN and GET_VALUES have in them.

use super::lists::{any_value, append_long_pair, append_pair, damaged_list, filled_list};
use crate::random::Random;
use crate::wire::record_with;

/// A record with random padding, whose bytes and reserved byte are anything.
pub fn record(random: &mut Random, kind: u8, id: u16, content: &[u8]) -> Vec<u8> {
    let padding = match random.below(12) {
        0..=5 => 0,
        6..=9 => random.below(8) as u8,
        10 => random.byte() % 40,
        _ => 255,
    };
    let reserved = random.byte();
    record_with(kind, id, content, reserved, &random.bytes(padding.into()))
}

/// Mostly a known role; mostly KEEP_CONN, since a finish without it ends all.
pub fn begin_body(random: &mut Random) -> [u8; 8] {
    let mut body = [0; 8];
    for byte in &mut body {
        *byte = random.byte();
    }
    let role: u16 = match random.below(16) {
        0 => random.pick(&[0, 4, 256, 257, 258, 259, 513, 65_535]),
        1..=6 => 1,
        7..=9 => 2,
        _ => 3,
    };
    body[..2].copy_from_slice(&role.to_be_bytes());
    body[2] = match random.below(12) {
        0 => 0,
        1 => random.byte() & 0xfe,
        2 => random.byte() | 1,
        _ => 1,
    };
    body
}

/// The content of a query, up to 513 bytes.
pub fn query(random: &mut Random) -> Vec<u8> {
    const NAMES: [&str; 8] = [
        "FCGI_MAX_CONNS",
        "FCGI_MAX_REQS",
        "FCGI_MPXS_CONNS",
        "FCGI_MAX_CONNS",
        "FCGI_MAX_REQS",
        "FCGI_MPXS_CONNS",
        "FCGI_MAX_CONN",
        "FCGI_max_REQS",
    ];
    let mut list = Vec::new();
    for _ in 0..random.below(5) {
        let name = random.pick(&NAMES);
        let value = if random.one_in(4) {
            any_value(random)
        } else {
            Vec::new()
        };
        if random.one_in(4) {
            append_long_pair(random, &mut list, name.as_bytes(), &value);
        } else {
            append_pair(&mut list, name.as_bytes(), &value);
        }
    }
    match random.below(12) {
        0 => {
            let length = random.pick(&[511, 512, 513]);
            let mut all = filled_list(random, length);
            if list.len() + 400 < length {
                let rest = length - list.len();
                all = list;
                all.extend(filled_list(random, rest));
            }
            all
        }
        1 => {
            list.extend(damaged_list(random));
            list.truncate(512);
            list
        }
        _ if list.len() > 512 => Vec::new(),
        _ => list,
    }
}

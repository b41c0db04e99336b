//! What the calls answer.

use crate::codes::{Life, Role, Turn};
use crate::event::Event;
use crate::ffi;

/// What a step tells: the bytes of the piece that it used, and an event if there is one.
#[derive(Clone, Copy, Debug, PartialEq, Eq)]
pub struct Step<'p> {
    /// The bytes used. What was not used is to be read again.
    pub used: usize,
    /// What they tell.
    pub event: Option<Event<'p>>,
}

/// What a turn of the pump wrote.
#[derive(Clone, Copy, Debug, PartialEq, Eq)]
pub struct Pumped {
    /// How many records.
    pub records: usize,
    /// How many bytes, at the start of the buffer.
    pub written: usize,
    /// The END of a request closed the connection.
    pub closed: bool,
}

/// The end of a request that was written straight out.
#[derive(Clone, Copy, Debug, PartialEq, Eq)]
pub struct Finished {
    /// How many bytes, at the start of the buffer.
    pub written: usize,
    /// The connection is closed by it.
    pub closed: bool,
}

/// A parameter: its name and its value.
#[derive(Clone, Copy, Debug, PartialEq, Eq)]
pub struct Pair<'a> {
    /// The name.
    pub name: &'a [u8],
    /// The value.
    pub value: &'a [u8],
}

/// What a request is.
#[derive(Clone, Copy, Debug, PartialEq, Eq)]
pub struct RequestInfo {
    /// Its id.
    pub id: u16,
    /// How many bytes of parameters it has.
    pub length: u16,
    /// What it asks for.
    pub role: Role,
    /// The input stream that may come next.
    pub turn: Turn,
    /// Whether it still hears its records.
    pub life: Life,
    /// KEEP_CONN: the connection outlives it.
    pub keep: bool,
    /// Its STDOUT is ended.
    pub out_ended: bool,
    /// Something was said on its STDERR.
    pub err_used: bool,
    /// Its STDERR is ended.
    pub err_ended: bool,
    /// How many bytes of its STDIN were shown.
    pub stdin_shown: u32,
    /// How many bytes of its DATA were shown.
    pub data_shown: u32,
}

impl RequestInfo {
    pub(crate) fn told(r: ffi::RequestInfo) -> Self {
        RequestInfo {
            id: r.id,
            length: r.length,
            role: Role::told(r.role),
            turn: Turn::told(r.turn),
            life: Life::told(r.life),
            keep: r.keep == 1,
            out_ended: r.out_ended == 1,
            err_used: r.err_used == 1,
            err_ended: r.err_ended == 1,
            stdin_shown: r.stdin_shown,
            data_shown: r.data_shown,
        }
    }
}

impl<'a> Pair<'a> {
    pub(crate) fn told(list: &'a [u8], pair: ffi::Pair) -> Self {
        Pair {
            name: &list[pair.name..pair.name + pair.name_len],
            value: &list[pair.value..pair.value + pair.value_len],
        }
    }
}

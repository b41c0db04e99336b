//! The calls as C has them. `include/yotnaghez.h` says what each takes and answers; [`Receiver`](crate::Receiver)
//! makes them safe. A null pointer is fine with a length of 0.

#![allow(missing_docs)]

pub const SLOTS: usize = 16;
pub const AREA: usize = 4096;
pub const STORE: usize = 65536;
pub const QUERY: usize = 512;
pub const WAITS: usize = 54;
pub const ROOM: usize = 1024;
pub const QUEUE: usize = 16384;
pub const PUMPED: usize = 520;
pub const CHUNK: usize = 8184;
pub const REPLY: usize = 64;

#[repr(C)]
#[derive(Clone, Copy, Debug, PartialEq, Eq)]
pub struct State {
    pub content: usize,
    pub padding: usize,
    pub held: usize,
    pub gathered: usize,
    pub stdin_shown: [u32; SLOTS],
    pub data_shown: [u32; SLOTS],
    pub ids: [u16; SLOTS],
    pub lengths: [u16; SLOTS],
    pub keep: u16,
    pub out_ended: u16,
    pub err_used: u16,
    pub err_ended: u16,
    pub occupied: u16,
    pub target_number: u16,
    pub roles: [u8; SLOTS],
    pub turns: [u8; SLOTS],
    pub lives: [u8; SLOTS],
    pub header: [u8; 8],
    pub body: [u8; 8],
    pub target: u8,
    pub open: u8,
}

#[repr(C)]
#[derive(Clone, Copy, Debug, Default, PartialEq, Eq)]
pub struct Event {
    pub count: usize,
    pub id: u16,
    pub place: u16,
    pub kind: u8,
    pub stream: u8,
    pub number: u8,
    pub keep: u8,
}

#[repr(C)]
#[derive(Clone, Copy, Debug)]
pub struct Started {
    pub state: State,
    pub refusal: u8,
}

#[repr(C)]
#[derive(Clone, Copy, Debug)]
pub struct Stepped {
    pub used: usize,
    pub event: Event,
    pub state: State,
    pub refusal: u8,
}

#[repr(C)]
#[derive(Clone, Copy, Debug)]
pub struct Place {
    pub offset: usize,
    pub length: usize,
    pub refusal: u8,
    pub found: u8,
}

#[repr(C)]
#[derive(Clone, Copy, Debug)]
pub struct Pair {
    pub name: usize,
    pub name_len: usize,
    pub value: usize,
    pub value_len: usize,
    pub next: usize,
    pub refusal: u8,
    pub kind: u8,
}

#[repr(C)]
#[derive(Clone, Copy, Debug)]
pub struct RequestInfo {
    pub stdin_shown: u32,
    pub data_shown: u32,
    pub id: u16,
    pub length: u16,
    pub role: u8,
    pub turn: u8,
    pub life: u8,
    pub keep: u8,
    pub out_ended: u8,
    pub err_used: u8,
    pub err_ended: u8,
    pub refusal: u8,
}

#[repr(C)]
#[derive(Clone, Copy, Debug)]
pub struct Count {
    pub count: u32,
    pub refusal: u8,
}

#[repr(C)]
#[derive(Clone, Copy, Debug)]
pub struct Queued {
    pub state: State,
    pub refusal: u8,
}

#[repr(C)]
#[derive(Clone, Copy, Debug)]
pub struct Pumped {
    pub records: usize,
    pub written: usize,
    pub state: State,
    pub refusal: u8,
    pub closed: u8,
}

#[repr(C)]
#[derive(Clone, Copy, Debug)]
pub struct Written {
    pub written: usize,
    pub state: State,
    pub refusal: u8,
}

#[repr(C)]
#[derive(Clone, Copy, Debug)]
pub struct Finished {
    pub written: usize,
    pub state: State,
    pub refusal: u8,
    pub closed: u8,
}

#[repr(C)]
#[derive(Clone, Copy, Debug)]
pub struct Wrote {
    pub written: usize,
    pub refusal: u8,
}

#[repr(C)]
#[derive(Clone, Copy, Debug, PartialEq, Eq)]
pub struct Reader {
    pub log: u32,
    pub sent: u32,
    pub value: u32,
    pub count: u8,
    pub field: u8,
    pub standing: u8,
}

#[repr(C)]
#[derive(Clone, Copy, Debug)]
pub struct Read {
    pub used: usize,
    pub log: u32,
    pub tenths: i32,
    pub raw: u32,
    pub reader: Reader,
    pub kind: u8,
    pub refusal: u8,
}

#[repr(C)]
#[derive(Clone, Copy, Debug)]
pub struct Ended {
    pub reader: Reader,
    pub refusal: u8,
}

#[repr(C)]
#[derive(Clone, Copy, Debug)]
pub struct Card {
    pub first: f64,
    pub second: f64,
    pub serial: u32,
    pub kind: u8,
}

#[repr(C)]
#[derive(Clone, Copy, Debug)]
pub struct Corrected {
    pub count: f64,
    pub refusal: u8,
}

#[rustfmt::skip]
extern "C" {
    pub fn yot_start(store: *mut u8, store_len: usize, gathered: *mut u8, waits: *mut u16) -> Started;
    pub fn yot_step(
        state: State, store: *mut u8, store_len: usize, gathered: *mut u8, waits: *mut u16, piece: *const u8,
        piece_len: usize,
    ) -> Stepped;
    pub fn yot_next_event(
        state: State, store: *mut u8, store_len: usize, gathered: *mut u8, waits: *mut u16, piece: *const u8,
        piece_len: usize,
    ) -> Stepped;
    pub fn yot_value(
        state: State, waits: *const u16, store: *const u8, store_len: usize, id: u16, name: *const u8, name_len: usize,
    ) -> Place;
    pub fn yot_list(state: State, waits: *const u16, store: *const u8, store_len: usize, id: u16) -> Place;
    pub fn yot_pair_at(
        state: State, waits: *const u16, store: *const u8, store_len: usize, id: u16, k: usize,
    ) -> Pair;
    pub fn yot_pair_from(
        state: State, waits: *const u16, store: *const u8, store_len: usize, id: u16, place: usize,
    ) -> Pair;
    pub fn yot_request(state: State, waits: *const u16, id: u16) -> RequestInfo;
    pub fn yot_active_count(state: State, waits: *const u16) -> Count;
    pub fn yot_queue_output(
        state: State, waits: *mut u16, marks: *mut u8, queue: *mut u8, queue_len: usize, id: u16, stream: u8,
        bytes: *const u8, bytes_len: usize,
    ) -> Queued;
    pub fn yot_queue_end(state: State, waits: *mut u16, marks: *mut u8, id: u16, stream: u8) -> Queued;
    pub fn yot_queue_finish(state: State, waits: *mut u16, marks: *mut u8, id: u16, status: u32) -> Queued;
    pub fn yot_pump(
        state: State, store: *mut u8, store_len: usize, waits: *mut u16, marks: *mut u8, queue: *mut u8,
        queue_len: usize, allowance: usize, out: *mut u8, out_len: usize,
    ) -> Pumped;
    pub fn yot_write_output(
        state: State, waits: *const u16, id: u16, stream: u8, bytes: *const u8, bytes_len: usize, out: *mut u8,
        out_len: usize,
    ) -> Written;
    pub fn yot_end_output(
        state: State, waits: *const u16, id: u16, stream: u8, out: *mut u8, out_len: usize,
    ) -> Written;
    pub fn yot_finish(
        state: State, waits: *mut u16, store: *mut u8, store_len: usize, id: u16, status: u32, out: *mut u8,
        out_len: usize,
    ) -> Finished;
    pub fn yot_owed_reply(event: Event, out: *mut u8, out_len: usize) -> Wrote;
    pub fn yot_write_pair(
        out: *mut u8, out_len: usize, name: *const u8, name_len: usize, value: *const u8, value_len: usize,
    ) -> Wrote;
    pub fn yot_new_reader() -> Reader;
    pub fn yot_read_reading(reader: Reader, bytes: *const u8, bytes_len: usize) -> Read;
    pub fn yot_end_body(reader: Reader) -> Ended;
    pub fn yot_write_reading(out: *mut u8, out_len: usize, log: u32, tenths: i32, raw: u32) -> Wrote;
    pub fn yot_correct(thawed: Card, frozen: Card, tenths: i32, raw: u32) -> Corrected;
}

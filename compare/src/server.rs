//! The web server's end of a connection in ordinary Rust, written from the text of `docs/SERVER.md`: requests are
//! opened and written, replies are read. The fields of its state are open, so that a state that no traffic leads to can
//! be tried too; numbers that a rule limits are kept in types wider than their limit.

pub mod answer;
mod calls;
mod shape;
mod step;

use crate::answer::{Output, Role};
use crate::state::{Life, Turn, SLOTS};
use crate::wire::HEADER;

/// The most content bytes of a GET_VALUES_RESULT, and of the GET_VALUES that asks for it.
pub const VALUES: usize = 512;
/// Content bytes of BEGIN, END and UNKNOWN_TYPE records.
pub const BODY: usize = 8;

/// An open request. The station's type has a count of each body and a mark of STDERR too; nothing here depends on them.
#[derive(Clone, Copy, Debug, PartialEq, Eq)]
pub struct Request {
    pub id: u16,
    /// Not used, but for row 9.
    pub length: u16,
    pub role: Role,
    pub keep: bool,
    /// The stream that is written next.
    pub turn: Turn,
    /// Live, or aborted; a faulted one is treated as an aborted one.
    pub life: Life,
    pub out_ended: bool,
    pub err_ended: bool,
}

impl Request {
    pub const FREE: Request = Request {
        id: 0,
        length: 0,
        role: Role::Responder,
        keep: false,
        turn: Turn::Params,
        life: Life::Live,
        out_ended: false,
        err_ended: false,
    };

    pub fn aborted(&self) -> bool {
        self.life != Life::Live
    }

    /// Whether the station has ended the stream; to be set, too.
    pub fn ended_mut(&mut self, output: Output) -> &mut bool {
        match output {
            Output::Stdout => &mut self.out_ended,
            Output::Stderr => &mut self.err_ended,
        }
    }
}

/// What the content of the record being read is for. A slot is a byte, so that one that is none can be given.
#[derive(Clone, Copy, Debug, PartialEq, Eq)]
pub enum Target {
    Skip,
    Stdout(u8),
    Stderr(u8),
    End(u8),
    Values,
    Unknown,
}

#[derive(Clone, Debug, PartialEq, Eq)]
pub struct Server {
    pub open: bool,
    /// Bit i says that slot i is taken.
    pub occupied: u16,
    pub slots: [Request; SLOTS],
    /// Header bytes held, and these bytes.
    pub held: u64,
    pub header: [u8; HEADER],
    /// Of the record being read: what its content is for, and what is left of it.
    pub target: Target,
    pub content: u64,
    pub padding: u64,
    /// How many bytes of a body or of a result are gathered; the bytes of a body.
    pub gathered: u64,
    pub body: [u8; BODY],
    /// The last result. The caller lends these bytes to a call that needs them, and they count as part of the state.
    pub values: [u8; VALUES],
}

impl Server {
    /// A closed connection with no requests, between two records, and values of zeros.
    pub fn closed() -> Server {
        Server {
            open: false,
            occupied: 0,
            slots: [Request::FREE; SLOTS],
            held: 0,
            header: [0; HEADER],
            target: Target::Skip,
            content: 0,
            padding: 0,
            gathered: 0,
            body: [0; BODY],
            values: [0; VALUES],
        }
    }

    /// A new connection, whatever was before.
    pub fn start(&mut self) {
        *self = Server {
            open: true,
            ..Server::closed()
        };
    }

    pub fn taken(&self, slot: usize) -> bool {
        self.occupied >> slot & 1 == 1
    }

    /// The slot of an open request.
    pub fn find(&self, id: u16) -> Option<usize> {
        (0..SLOTS).find(|&slot| self.taken(slot) && self.slots[slot].id == id)
    }

    pub fn lowest_free(&self) -> Option<usize> {
        let slot = (!self.occupied).trailing_zeros() as usize;
        (slot < SLOTS).then_some(slot)
    }

    /// A slot that is freed keeps nothing of its request.
    fn free(&mut self, slot: usize) {
        self.occupied &= !(1 << slot);
        self.slots[slot] = Request::FREE;
    }

    /// Closing frees all requests; the values stay.
    fn close(&mut self) {
        *self = Server {
            values: self.values,
            ..Server::closed()
        };
    }
}

//! The state of a connection. Its fields are open, so that a state that no traffic leads to can be tried too; numbers
//! that a rule limits are kept in types wider than their limit, so that each limit can be broken.

use crate::answer::{Output, Role, Stream};
use crate::wire::HEADER;

pub const SLOTS: usize = 16;
/// Bytes of the store that belong to one slot.
pub const AREA: usize = 4_096;
pub const STORE: usize = SLOTS * AREA;
/// The most content bytes of a query.
pub const QUERY: usize = 512;
/// Content bytes of a BEGIN record.
pub const BEGIN_BODY: usize = 8;

/// The input stream whose turn it is.
#[derive(Clone, Copy, Debug, PartialEq, Eq)]
pub enum Turn {
    Params,
    Stdin,
    Data,
    Done,
}

/// A request that is faulted or aborted is spent.
#[derive(Clone, Copy, Debug, PartialEq, Eq)]
pub enum Life {
    Live,
    Faulted,
    Aborted,
}

#[derive(Clone, Copy, Debug, PartialEq, Eq)]
pub struct Request {
    pub id: u16,
    /// How many bytes of its area are its list.
    pub length: u16,
    pub role: Role,
    pub keep: bool,
    pub turn: Turn,
    pub life: Life,
    pub out_ended: bool,
    pub err_used: bool,
    pub err_ended: bool,
    /// How many bytes of each body were shown. A count that is full stays so.
    pub stdin_shown: u32,
    pub data_shown: u32,
}

impl Request {
    pub const FREE: Request = Request {
        id: 0,
        length: 0,
        role: Role::Responder,
        keep: false,
        turn: Turn::Params,
        life: Life::Live,
        out_ended: false,
        err_used: false,
        err_ended: false,
        stdin_shown: 0,
        data_shown: 0,
    };

    pub fn spent(&self) -> bool {
        self.life != Life::Live
    }

    pub fn params_ended(&self) -> bool {
        self.turn != Turn::Params
    }

    pub fn shown(&self, stream: Stream) -> u32 {
        match stream {
            Stream::Stdin => self.stdin_shown,
            Stream::Data => self.data_shown,
        }
    }

    /// The same to be set: it grows with each data event.
    pub fn shown_mut(&mut self, stream: Stream) -> &mut u32 {
        match stream {
            Stream::Stdin => &mut self.stdin_shown,
            Stream::Data => &mut self.data_shown,
        }
    }

    pub fn output_ended(&self, output: Output) -> bool {
        match output {
            Output::Stdout => self.out_ended,
            Output::Stderr => self.err_ended,
        }
    }

    pub fn end_output(&mut self, output: Output) {
        match output {
            Output::Stdout => self.out_ended = true,
            Output::Stderr => self.err_ended = true,
        }
    }
}

/// What the content of the record being read is for. A slot is a byte, so that one that is none can be given.
#[derive(Clone, Copy, Debug, PartialEq, Eq)]
pub enum Target {
    Skip,
    Begin(u16),
    Query,
    Params(u8),
    Stdin(u8),
    Data(u8),
}

impl Target {
    pub fn slot(self) -> Option<u8> {
        match self {
            Target::Params(slot) | Target::Stdin(slot) | Target::Data(slot) => Some(slot),
            Target::Skip | Target::Begin(_) | Target::Query => None,
        }
    }
}

#[derive(Clone, Debug, PartialEq, Eq)]
pub struct Connection {
    pub open: bool,
    /// Bit i says that slot i is taken.
    pub occupied: u16,
    pub slots: [Request; SLOTS],
    /// Header bytes held, and these bytes.
    pub held: u64,
    pub header: [u8; HEADER],
    /// Of the record being read: what its content is for, and what is left of it.
    pub target: Target,
    pub content: u64,
    pub padding: u64,
    /// How many bytes of a BEGIN body or of a query are gathered, and these bytes.
    pub gathered: u64,
    pub body: [u8; BEGIN_BODY],
    pub query: [u8; QUERY],
}

impl Connection {
    /// A closed connection with no requests, between two records.
    pub fn closed() -> Connection {
        Connection {
            open: false,
            occupied: 0,
            slots: [Request::FREE; SLOTS],
            held: 0,
            header: [0; HEADER],
            target: Target::Skip,
            content: 0,
            padding: 0,
            gathered: 0,
            body: [0; BEGIN_BODY],
            query: [0; QUERY],
        }
    }

    pub fn taken(&self, slot: usize) -> bool {
        self.occupied >> slot & 1 == 1
    }

    /// The slot of an active request.
    pub fn find(&self, id: u16) -> Option<usize> {
        (0..SLOTS).find(|&slot| self.taken(slot) && self.slots[slot].id == id)
    }

    pub fn lowest_free(&self) -> Option<usize> {
        let slot = (!self.occupied).trailing_zeros() as usize;
        (slot < SLOTS).then_some(slot)
    }

    /// Closing frees all requests and zeroes the store. What a query left behind stays; nobody reads it.
    pub fn close(&mut self, store: &mut [u8]) {
        let query = self.query;
        *self = Connection {
            query,
            ..Connection::closed()
        };
        store.fill(0);
    }

    pub fn forget_body(&mut self) {
        self.gathered = 0;
        self.body = [0; BEGIN_BODY];
    }
}

/// The bytes of the store that belong to a slot.
pub fn area(slot: usize) -> std::ops::Range<usize> {
    slot * AREA..(slot + 1) * AREA
}

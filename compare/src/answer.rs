//! What the calls answer. The discriminants are the numbers that the rules give to each case. One close and one fault
//! carry a place, so both have a function for their number.

/// When a call is refused.
#[derive(Clone, Copy, Debug, PartialEq, Eq)]
#[repr(u8)]
pub enum Refusal {
    Closed = 1,
    StoreSize = 2,
    NotActive = 3,
    NotReady = 4,
    StreamEnded = 5,
    NoRoom = 6,
    NoPair = 7,
    TooLong = 8,
    OutOfShape = 9,
    Waiting = 10,
}

/// Why a connection closes in a step. The place is that of the query's malformed pair.
#[derive(Clone, Copy, Debug, PartialEq, Eq)]
pub enum Close {
    Version,
    BeginLength,
    QueryLength,
    QueryMalformed { place: u16 },
}

impl Close {
    pub fn number(self) -> u8 {
        match self {
            Close::Version => 11,
            Close::BeginLength => 12,
            Close::QueryLength => 13,
            Close::QueryMalformed { .. } => 14,
        }
    }

    pub fn place(self) -> Option<u16> {
        match self {
            Close::QueryMalformed { place } => Some(place),
            Close::Version | Close::BeginLength | Close::QueryLength => None,
        }
    }
}

/// What a request did wrong. The place is that of the list's malformed pair.
#[derive(Clone, Copy, Debug, PartialEq, Eq)]
pub enum Fault {
    BeginAgain,
    OutOfTurn,
    WrongType,
    TooLong,
    Malformed { place: u16 },
    Repeated,
}

impl Fault {
    pub fn number(self) -> u8 {
        match self {
            Fault::BeginAgain => 21,
            Fault::OutOfTurn => 22,
            Fault::WrongType => 23,
            Fault::TooLong => 24,
            Fault::Malformed { .. } => 25,
            Fault::Repeated => 26,
        }
    }

    pub fn place(self) -> Option<u16> {
        match self {
            Fault::Malformed { place } => Some(place),
            _ => None,
        }
    }
}

/// Why an opening is refused: the protocol statuses of END_REQUEST that are sent for it.
#[derive(Clone, Copy, Debug, PartialEq, Eq)]
#[repr(u8)]
pub enum Status {
    Overloaded = 2,
    UnknownRole = 3,
}

#[derive(Clone, Copy, Debug, PartialEq, Eq)]
#[repr(u8)]
pub enum Role {
    Responder = 1,
    Authorizer = 2,
    Filter = 3,
}

impl Role {
    pub fn of(number: u16) -> Option<Role> {
        match number {
            1 => Some(Role::Responder),
            2 => Some(Role::Authorizer),
            3 => Some(Role::Filter),
            _ => None,
        }
    }
}

/// An input stream whose content is shown; the discriminant is the type of its records.
#[derive(Clone, Copy, Debug, PartialEq, Eq)]
#[repr(u8)]
pub enum Stream {
    Stdin = 5,
    Data = 8,
}

/// An output stream; the discriminant is the type of its records.
#[derive(Clone, Copy, Debug, PartialEq, Eq)]
#[repr(u8)]
pub enum Output {
    Stdout = 6,
    Stderr = 7,
}

/// How many bytes of a body were shown, against the length that the request's parameters state for it.
#[derive(Clone, Copy, Debug, PartialEq, Eq)]
#[repr(u8)]
pub enum Word {
    Short = 0,
    Exact = 1,
    Over = 2,
    /// No length is stated.
    Unstated = 3,
}

/// Which values a query named.
#[derive(Clone, Copy, Debug, Default, PartialEq, Eq)]
pub struct Named {
    pub max_conns: bool,
    pub max_reqs: bool,
    pub mpxs_conns: bool,
}

/// What a step or a `next_event` tells. The bytes of `Data` are the last `count` of those that the call used.
#[derive(Clone, Copy, Debug, PartialEq, Eq)]
pub enum Event {
    Open {
        id: u16,
        role: Role,
        keep: bool,
    },
    Ready {
        id: u16,
        length: u16,
    },
    Data {
        id: u16,
        stream: Stream,
        count: usize,
    },
    End {
        id: u16,
        stream: Stream,
        word: Word,
    },
    Abort {
        id: u16,
    },
    Refuse {
        id: u16,
        status: Status,
    },
    Fault {
        id: u16,
        fault: Fault,
    },
    Query(Named),
    Unknown {
        kind: u8,
    },
    Closed(Close),
}

/// A step or a `next_event` that was not refused: the bytes it used, and what it tells.
#[derive(Clone, Copy, Debug, PartialEq, Eq)]
pub struct Step {
    pub used: usize,
    pub event: Option<Event>,
}

/// Whether value's bytes are those of the store or the fallback.
#[derive(Clone, Copy, Debug, PartialEq, Eq)]
pub enum Source {
    Store,
    Fallback,
}

/// A finish: the bytes it wrote, and whether the connection closed by it.
#[derive(Clone, Copy, Debug, PartialEq, Eq)]
pub struct Finished {
    pub wrote: usize,
    pub closed: bool,
}

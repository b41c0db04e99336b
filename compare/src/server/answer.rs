//! What the calls of the server's end answer. The discriminants are the numbers that the tables give to each case.

use crate::answer::Output;
use crate::state::Turn;

/// When a call is refused.
#[derive(Clone, Copy, Debug, PartialEq, Eq)]
#[repr(u8)]
pub enum Refusal {
    Closed = 1,
    NotOpen = 3,
    NoRoom = 6,
    TooLong = 8,
    OutOfShape = 9,
    IdZero = 57,
    IdOpen = 58,
    NoSlot = 59,
    UnknownRole = 60,
    OutOfTurn = 61,
    BadQuery = 62,
}

/// Why a connection closes in a step.
#[derive(Clone, Copy, Debug, PartialEq, Eq)]
#[repr(u8)]
pub enum Close {
    Version = 51,
    NoReply = 52,
    NotOpen = 53,
    BodyLength = 54,
    Values = 55,
    StreamEnded = 56,
}

/// A stream that is written for a request; the discriminant is the type of its records.
#[derive(Clone, Copy, Debug, PartialEq, Eq)]
#[repr(u8)]
pub enum Input {
    Params = 4,
    Stdin = 5,
    Data = 8,
}

impl Input {
    pub fn turn(self) -> Turn {
        match self {
            Input::Params => Turn::Params,
            Input::Stdin => Turn::Stdin,
            Input::Data => Turn::Data,
        }
    }
}

/// What a step tells. The bytes of `Output` are the first `count` of the piece, and the step uses no others.
#[derive(Clone, Copy, Debug, PartialEq, Eq)]
pub enum Event {
    Output {
        id: u16,
        stream: Output,
        count: usize,
    },
    Ended {
        id: u16,
        stream: Output,
    },
    Finished {
        id: u16,
        app_status: u32,
        protocol_status: u8,
    },
    /// The list is the first bytes of the values.
    Values {
        length: usize,
    },
    Unknown {
        kind: u8,
    },
    Closed(Close),
}

/// A step that was not refused: the bytes it used, and what it tells.
#[derive(Clone, Copy, Debug, PartialEq, Eq)]
pub struct Step {
    pub used: usize,
    pub event: Option<Event>,
}

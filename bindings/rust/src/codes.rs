//! Names for the numbers that the library answers.

use std::fmt;

/// An enum whose cases have numbers, with the way back from a number.
macro_rules! numbered {
    ($(#[$doc:meta])* $name:ident { $($(#[$case_doc:meta])* $case:ident = $number:literal: $text:literal,)* }) => {
        $(#[$doc])*
        #[derive(Clone, Copy, Debug, PartialEq, Eq, Hash)]
        #[repr(u8)]
        pub enum $name {
            $($(#[$case_doc])* $case = $number,)*
        }

        impl $name {
            /// The number that the rules, and C, have for it.
            pub const fn number(self) -> u8 {
                self as u8
            }

            /// The case of a number.
            pub fn of(number: u8) -> Option<Self> {
                match number {
                    $($number => Some(Self::$case),)*
                    _ => None,
                }
            }

            /// The case of a number that the library answered. It answers no others.
            #[allow(dead_code)]
            pub(crate) fn told(number: u8) -> Self {
                match Self::of(number) {
                    Some(case) => case,
                    None => panic!(concat!(stringify!($name), " {}: the library has no such number"), number),
                }
            }
        }

        impl fmt::Display for $name {
            fn fmt(&self, f: &mut fmt::Formatter<'_>) -> fmt::Result {
                f.write_str(match self {
                    $(Self::$case => $text,)*
                })
            }
        }
    };
}

numbered! {
    /// Why a call is refused. A refused call changes nothing.
    Refusal {
        /// The connection is closed.
        Closed = 1: "the connection is closed",
        /// The store or the queue does not have its size. This crate lends them whole, so it does not come here.
        StoreSize = 2: "the store or the queue does not have its size",
        /// No active request has that id.
        NotActive = 3: "no active request has that id",
        /// The request's parameters have not ended, or are lost by a fault.
        NotReady = 4: "the request's parameters have not ended, or are lost",
        /// That output stream is ended, or the request is finished.
        Ended = 5: "the output is ended",
        /// What would be written is longer than the buffer.
        NoRoom = 6: "the buffer is too short",
        /// The list has no pair of that number.
        NoPair = 7: "the list has no pair of that number",
        /// A name or a value to be written is over 65,535 bytes.
        TooLong = 8: "a name or a value is over 65,535 bytes",
        /// The state is not one that the calls leave, or a code is unknown. It does not come here.
        OutOfShape = 9: "the state is out of shape",
        /// There is no room in the queue for all of it; straight out, something of the request waits already.
        Waiting = 10: "output of the request is waiting",
    }
}

numbered! {
    /// Why a body of readings is refused.
    ReadingFault {
        /// A number over 4,294,967,295, or of more than five bytes.
        TooLarge = 31: "a number in a reading is too large",
        /// A number that has a shorter form.
        NotShortest = 32: "a number in a reading is not in its shortest form",
        /// A temperature below -600 or over 400 tenths.
        OutOfRange = 33: "a temperature is out of range",
        /// The body ended inside a reading.
        CutShort = 34: "the body ended inside a reading",
    }
}

numbered! {
    /// Why a raw count is not corrected.
    CorrectionFault {
        /// A raw count over 65,535.
        RawCount = 41: "the raw count is over 65,535",
        /// A temperature below -600 or over 400 tenths.
        Temperature = 42: "the temperature is out of range",
        /// A card of the wrong kind.
        CardKind = 43: "a calibration card is of the wrong kind",
        /// A card's float is not finite, or is outside -1,000 to 1,000.
        CardFloat = 44: "a number of a calibration card is out of range",
    }
}

numbered! {
    /// Why a request is not opened.
    Status {
        /// All 16 slots are taken.
        Overloaded = 2: "overloaded",
        /// The role is none of the three.
        UnknownRole = 3: "unknown role",
    }
}

numbered! {
    /// What the web server asks the application to be.
    Role {
        /// Gets STDIN and answers.
        Responder = 1: "responder",
        /// Has no input streams; it is answered when it is ready.
        Authorizer = 2: "authorizer",
        /// Gets DATA after STDIN.
        Filter = 3: "filter",
    }
}

numbered! {
    /// An input stream, by the type of its records.
    Stream {
        /// The body of the request.
        Stdin = 5: "STDIN",
        /// The data of a filter.
        Data = 8: "DATA",
    }
}

numbered! {
    /// An output stream, by the type of its records.
    Output {
        /// The answer.
        Stdout = 6: "STDOUT",
        /// The web server's error log.
        Stderr = 7: "STDERR",
    }
}

numbered! {
    /// What came of a stream, against the length that the request stated.
    Measure {
        /// No length is stated, or it is no number.
        Unstated = 0: "unstated",
        /// Fewer bytes came.
        Short = 1: "short",
        /// As many.
        Exact = 2: "exact",
        /// More.
        Over = 3: "over",
    }
}

numbered! {
    /// The input stream that may come next.
    Turn {
        /// The parameters.
        Params = 0: "PARAMS",
        /// STDIN.
        Stdin = 1: "STDIN",
        /// DATA.
        Data = 2: "DATA",
        /// None: all input is in.
        Done = 3: "done",
    }
}

numbered! {
    /// Whether a request still hears its records.
    Life {
        /// It does.
        Live = 0: "live",
        /// It broke a rule.
        Faulted = 1: "faulted",
        /// It was aborted, or is finished while its end still waits.
        Aborted = 2: "aborted",
    }
}

impl std::error::Error for Refusal {}
impl std::error::Error for ReadingFault {}
impl std::error::Error for CorrectionFault {}

impl From<Refusal> for std::io::Error {
    fn from(refusal: Refusal) -> Self {
        std::io::Error::other(refusal)
    }
}

/// What a request did wrong.
#[derive(Clone, Copy, Debug, PartialEq, Eq, Hash)]
pub enum Fault {
    /// A BEGIN record for a request that is active (21).
    BeginAgain,
    /// A record of PARAMS, STDIN or DATA when it is not the turn of that stream (22).
    OutOfTurn,
    /// A record of a type that no web server sends to a request (23).
    WrongType,
    /// More than 4,096 bytes of parameters (24).
    TooLong,
    /// A malformed list (25), and where the pair starts in it that cannot be read.
    Malformed(u16),
    /// Two parameters have the same name (26).
    Repeated,
}

impl Fault {
    /// The number that the rules have for it, 21 to 26.
    pub const fn number(self) -> u8 {
        match self {
            Fault::BeginAgain => 21,
            Fault::OutOfTurn => 22,
            Fault::WrongType => 23,
            Fault::TooLong => 24,
            Fault::Malformed(_) => 25,
            Fault::Repeated => 26,
        }
    }

    /// The place of a malformed list.
    pub fn place(self) -> Option<u16> {
        match self {
            Fault::Malformed(place) => Some(place),
            _ => None,
        }
    }

    pub(crate) fn told(number: u8, place: u16) -> Self {
        match number {
            21 => Fault::BeginAgain,
            22 => Fault::OutOfTurn,
            23 => Fault::WrongType,
            24 => Fault::TooLong,
            25 => Fault::Malformed(place),
            26 => Fault::Repeated,
            _ => panic!("fault {number}: the library has no such number"),
        }
    }
}

/// Why a connection closes.
#[derive(Clone, Copy, Debug, PartialEq, Eq, Hash)]
pub enum Close {
    /// A header whose version is not 1 (11).
    Version,
    /// A BEGIN record that does not have 8 content bytes (12).
    BeginLength,
    /// A query of more than 512 bytes (13).
    QueryLength,
    /// A malformed query (14), and where the pair starts in it that cannot be read.
    QueryMalformed(u16),
}

impl Close {
    /// The number that the rules have for it, 11 to 14.
    pub const fn number(self) -> u8 {
        match self {
            Close::Version => 11,
            Close::BeginLength => 12,
            Close::QueryLength => 13,
            Close::QueryMalformed(_) => 14,
        }
    }

    /// The place of a malformed query.
    pub fn place(self) -> Option<u16> {
        match self {
            Close::QueryMalformed(place) => Some(place),
            _ => None,
        }
    }

    pub(crate) fn told(number: u8, place: u16) -> Self {
        match number {
            11 => Close::Version,
            12 => Close::BeginLength,
            13 => Close::QueryLength,
            14 => Close::QueryMalformed(place),
            _ => panic!("close {number}: the library has no such number"),
        }
    }
}

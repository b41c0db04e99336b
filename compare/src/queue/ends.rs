//! The ends of output streams that wait at one place: none, one, or both in an order.

use crate::answer::Output;

#[derive(Clone, Copy, Debug, PartialEq, Eq)]
#[repr(u8)]
pub enum Ends {
    None = 0,
    Out = 1,
    Err = 2,
    OutErr = 3,
    ErrOut = 4,
}

impl Ends {
    /// The ends right behind a byte with this mark. Numbers over 4 are none.
    pub fn behind(mark: u8) -> Ends {
        match mark / 2 {
            1 => Ends::Out,
            2 => Ends::Err,
            3 => Ends::OutErr,
            4 => Ends::ErrOut,
            _ => Ends::None,
        }
    }

    pub fn has(self, output: Output) -> bool {
        match output {
            Output::Stdout => matches!(self, Ends::Out | Ends::OutErr | Ends::ErrOut),
            Output::Stderr => matches!(self, Ends::Err | Ends::OutErr | Ends::ErrOut),
        }
    }

    /// One more end behind these. One that waits here already stays where it is.
    pub fn and(self, output: Output) -> Ends {
        match (self, output) {
            (Ends::None, Output::Stdout) => Ends::Out,
            (Ends::None, Output::Stderr) => Ends::Err,
            (Ends::Out, Output::Stderr) => Ends::OutErr,
            (Ends::Err, Output::Stdout) => Ends::ErrOut,
            _ => self,
        }
    }

    pub fn first(self) -> Option<Output> {
        match self {
            Ends::None => None,
            Ends::Out | Ends::OutErr => Some(Output::Stdout),
            Ends::Err | Ends::ErrOut => Some(Output::Stderr),
        }
    }

    /// The ends without the first.
    pub fn rest(self) -> Ends {
        match self {
            Ends::None | Ends::Out | Ends::Err => Ends::None,
            Ends::OutErr => Ends::Err,
            Ends::ErrOut => Ends::Out,
        }
    }
}

/// The stream of a byte with this mark.
pub fn stream_of(mark: u8) -> Output {
    if mark % 2 == 0 {
        Output::Stdout
    } else {
        Output::Stderr
    }
}

/// The mark of a byte of a stream, with no end behind it.
pub fn mark_of(output: Output) -> u8 {
    match output {
        Output::Stdout => 0,
        Output::Stderr => 1,
    }
}

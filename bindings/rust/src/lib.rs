//! A FastCGI 1.0 receiver that is proved: the application's end of a FastCGI connection, for programs that sit behind
//! a web server. The receiver is written in Rattle and linked as a static library; this crate makes its calls safe and
//! gives them the habits of Rust. `docs/BINDINGS.md` has a station in ten minutes, `docs/CALLS.md` every call.
//!
//! - [`Connection`]: events come out of the web server's bytes, and requests are answered with [`std::io::Write`]
//! - [`Receiver`]: every call of the library, one for one, with buffers of the caller's
//! - [`Reader`] and [`correct`]: readings in the body of a request, and their correction
//! - [`ffi`]: the calls as C has them
//!
//! ```no_run
//! use std::io::Write;
//! use std::net::TcpListener;
//! use yotnaghez::{Connection, Event, Stream};
//!
//! for stream in TcpListener::bind("127.0.0.1:9471")?.incoming() {
//!     let mut stream = stream?;
//!     std::thread::spawn(move || {
//!         Connection::new().serve(&mut stream, |connection, event| {
//!             if let Event::End { id, stream: Stream::Stdin, .. } = event {
//!                 let mut request = connection.request(id)?;
//!                 write!(request.stdout(), "Content-Type: text/plain\r\n\r\nhello\n")?;
//!                 request.finish(0)?;
//!             }
//!             Ok(())
//!         })
//!     });
//! }
//! # Ok::<(), std::io::Error>(())
//! ```

#![warn(missing_docs)]

pub mod ffi;

mod answers;
mod codes;
mod connection;
mod event;
mod readings;
mod receiver;

pub use answers::{Finished, Pair, Pumped, RequestInfo, Step};
pub use codes::{
    Close, CorrectionFault, Fault, Life, Measure, Output, ReadingFault, Refusal, Role, Status,
    Stream, Turn,
};
pub use connection::{Connection, Events, Request, Writer};
pub use event::Event;
pub use readings::{correct, write_reading, Card, Reader, Reading, Unwritten};
pub use receiver::{owed_reply, write_pair, Pairs, Receiver};

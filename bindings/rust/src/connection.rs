//! A connection to a web server: events come out of its bytes, and requests are answered like files.

use crate::answers::RequestInfo;
use crate::codes::{Output, Refusal, Role};
use crate::event::Event;
use crate::ffi;
use crate::receiver::{owed_reply, Pairs, Receiver};
use std::io::{self, Read, Write};

/// Content bytes of a record that the pump writes, at most: without a header of eight bytes.
const RUN: usize = ffi::PUMPED - 8;
/// Records that a turn of the pump may write: one for each request.
const TURN: usize = ffi::SLOTS;

/// A connection to a web server. It owns all of its memory, and the bytes that are to be sent.
///
/// The bytes that the web server sent go in by [`next_event`](Self::next_event), [`feed`](Self::feed) or
/// [`serve`](Self::serve); requests are answered by [`request`](Self::request); [`write_to`](Self::write_to) sends
/// what there is to be sent. Replies that events owe the web server are written by themselves.
///
/// ```
/// use std::io::Write;
/// use yotnaghez::{Connection, Event};
///
/// // A responder of id 1 is opened, has no parameters and no body.
/// let from_the_web_server = [
///     1, 1, 0, 1, 0, 8, 0, 0, 0, 1, 1, 0, 0, 0, 0, 0, // BEGIN
///     1, 4, 0, 1, 0, 0, 0, 0, // the end of PARAMS
///     1, 5, 0, 1, 0, 0, 0, 0, // the end of STDIN
/// ];
/// let mut connection = Connection::new();
/// let mut piece = &from_the_web_server[..];
/// while let Some(event) = connection.next_event(&mut piece) {
///     if let Event::End { id, .. } = event {
///         let mut request = connection.request(id)?;
///         write!(request.stdout(), "Content-Type: text/plain\r\n\r\nhello\n")?;
///         request.finish(0)?;
///     }
/// }
/// let mut to_the_web_server = Vec::new();
/// connection.write_to(&mut to_the_web_server)?;
/// assert_eq!(to_the_web_server[..8], [1, 6, 0, 1, 0, 34, 6, 0]); // a record of STDOUT
/// # Ok::<(), std::io::Error>(())
/// ```
#[derive(Default)]
pub struct Connection {
    receiver: Receiver,
    out: Vec<u8>,
}

impl Connection {
    /// An open connection with no requests.
    pub fn new() -> Self {
        Connection::default()
    }

    /// Whether the connection is open. Once it is closed, there may still be bytes to be sent.
    pub fn is_open(&self) -> bool {
        self.receiver.is_open()
    }

    /// Every call, for what this type does not do.
    pub fn receiver(&mut self) -> &mut Receiver {
        &mut self.receiver
    }

    /// Goes on to the next event and moves the piece past the bytes that were read. None at the end of the piece, and
    /// once the connection is closed.
    pub fn next_event<'p>(&mut self, piece: &mut &'p [u8]) -> Option<Event<'p>> {
        let step = self.receiver.next_event(piece).ok()?;
        *piece = &piece[step.used..];
        let event = step.event?;
        let mut reply = [0; ffi::REPLY];
        if let Ok(n) = owed_reply(&event, &mut reply) {
            self.out.extend_from_slice(&reply[..n]);
        }
        Some(event)
    }

    /// The events of a piece, one after another. Where requests are answered on the way, use
    /// [`next_event`](Self::next_event): an iterator holds the connection.
    ///
    /// ```
    /// use yotnaghez::{Connection, Event};
    ///
    /// let mut connection = Connection::new();
    /// let events: Vec<Event> = connection.feed(&[2, 1, 0, 1, 0, 8, 0, 0]).collect();
    /// assert!(matches!(events[..], [Event::Closed { cause }] if cause.number() == 11));
    /// ```
    pub fn feed<'c, 'p>(&'c mut self, piece: &'p [u8]) -> Events<'c, 'p> {
        Events {
            connection: self,
            piece,
        }
    }

    /// A request that is active, to be asked and answered. Refused by `Closed`, `NotActive`.
    pub fn request(&mut self, id: u16) -> Result<Request<'_>, Refusal> {
        let info = self.receiver.request(id)?;
        Ok(Request {
            connection: self,
            info,
        })
    }

    /// A turn of the pump, into the bytes that are to be sent. False where nothing waited.
    fn pump(&mut self) -> Result<bool, Refusal> {
        let start = self.out.len();
        self.out.resize(start + TURN * ffi::PUMPED, 0);
        let pumped = self.receiver.pump(TURN, &mut self.out[start..]);
        let written = pumped.map_or(0, |pumped| pumped.written);
        self.out.truncate(start + written);
        Ok(pumped?.records > 0)
    }

    /// Takes the bytes that are to be sent: all that waits, in turns.
    pub fn take_output(&mut self) -> Vec<u8> {
        while let Ok(true) = self.pump() {}
        std::mem::take(&mut self.out)
    }

    /// Sends the bytes that are to be sent: all that waits, in turns.
    pub fn write_to(&mut self, to: &mut impl Write) -> io::Result<()> {
        while let Ok(true) = self.pump() {
            if self.out.len() >= 65_536 {
                to.write_all(&self.out)?;
                self.out.clear();
            }
        }
        to.write_all(&self.out)?;
        self.out.clear();
        to.flush()
    }

    /// Reads and answers until the connection is closed or the web server closes it. The function is called with each
    /// event. Its errors, and those of the stream, end it.
    ///
    /// ```
    /// use std::io::{self, Read, Write};
    /// use std::net::TcpStream;
    /// use yotnaghez::{Connection, Event, Stream};
    ///
    /// fn serve(mut stream: TcpStream) -> io::Result<()> {
    ///     Connection::new().serve(&mut stream, |connection, event| {
    ///         if let Event::End { id, stream: Stream::Stdin, .. } = event {
    ///             let mut request = connection.request(id)?;
    ///             let script = request.param("SCRIPT_NAME").unwrap_or(b"?").to_vec();
    ///             request.stdout().write_all(b"Content-Type: text/plain\r\n\r\n")?;
    ///             request.stdout().write_all(&script)?;
    ///             request.finish(0)?;
    ///         }
    ///         Ok(())
    ///     })
    /// }
    /// ```
    pub fn serve(
        &mut self,
        stream: &mut (impl Read + Write),
        mut handle: impl FnMut(&mut Connection, Event) -> io::Result<()>,
    ) -> io::Result<()> {
        let mut buffer = vec![0; 65_536];
        while self.is_open() {
            let n = match stream.read(&mut buffer) {
                Ok(0) => return Ok(()),
                Ok(n) => n,
                Err(error) if error.kind() == io::ErrorKind::Interrupted => continue,
                Err(error) => return Err(error),
            };
            let mut piece = &buffer[..n];
            while let Some(event) = self.next_event(&mut piece) {
                handle(self, event)?;
            }
            self.write_to(stream)?;
        }
        Ok(())
    }
}

/// The events of a piece.
pub struct Events<'c, 'p> {
    connection: &'c mut Connection,
    piece: &'p [u8],
}

impl<'p> Events<'_, 'p> {
    /// The bytes that are not read yet.
    pub fn rest(&self) -> &'p [u8] {
        self.piece
    }
}

impl<'p> Iterator for Events<'_, 'p> {
    type Item = Event<'p>;

    fn next(&mut self) -> Option<Event<'p>> {
        self.connection.next_event(&mut self.piece)
    }
}

/// A request that is active.
pub struct Request<'c> {
    connection: &'c mut Connection,
    info: RequestInfo,
}

impl Request<'_> {
    /// Its id.
    pub fn id(&self) -> u16 {
        self.info.id
    }

    /// What the web server asks for.
    pub fn role(&self) -> Role {
        self.info.role
    }

    /// What it was when it was asked for: its turn, whether it is spent, what was shown of it.
    pub fn info(&self) -> RequestInfo {
        self.info
    }

    /// The value of a parameter. None also while the parameters have not ended, and after a fault.
    pub fn param(&self, name: impl AsRef<[u8]>) -> Option<&[u8]> {
        self.connection
            .receiver
            .value(self.info.id, name.as_ref())
            .ok()
            .flatten()
    }

    /// All parameters, in order. Refused by `NotReady`.
    pub fn params(&self) -> Result<Pairs<'_>, Refusal> {
        self.connection.receiver.pairs(self.info.id)
    }

    /// Where the answer is written.
    pub fn stdout(&mut self) -> Writer<'_> {
        self.writer(Output::Stdout)
    }

    /// Where lines for the web server's error log are written.
    pub fn stderr(&mut self) -> Writer<'_> {
        self.writer(Output::Stderr)
    }

    fn writer(&mut self, output: Output) -> Writer<'_> {
        Writer {
            connection: self.connection,
            id: self.info.id,
            output,
        }
    }

    /// Ends an output stream of a request that goes on.
    pub fn end(&mut self, output: Output) -> Result<(), Refusal> {
        self.connection.receiver.queue_end(self.info.id, output)
    }

    /// The request is answered. Its streams are ended, and its slot is given back once that is written. Without
    /// KEEP_CONN the connection closes then.
    pub fn finish(self, status: u32) -> Result<(), Refusal> {
        self.connection.receiver.queue_finish(self.info.id, status)
    }
}

/// An output stream of a request. What is written waits in the request's 1,024 bytes of the queue; when they are full,
/// a turn of the pump writes some of what waits, for all requests, to the bytes that are to be sent.
pub struct Writer<'c> {
    connection: &'c mut Connection,
    id: u16,
    output: Output,
}

impl Write for Writer<'_> {
    fn write(&mut self, bytes: &[u8]) -> io::Result<usize> {
        let some = &bytes[..bytes.len().min(RUN)];
        loop {
            let receiver = &mut self.connection.receiver;
            match receiver.queue_output(self.id, self.output, some) {
                Ok(()) => return Ok(some.len()),
                // Where there is no room, something of the request waits, and a turn writes some of it.
                Err(Refusal::Waiting) if self.connection.pump()? => {}
                Err(refusal) => return Err(refusal.into()),
            }
        }
    }

    /// Does nothing: [`Connection::write_to`] sends what waits.
    fn flush(&mut self) -> io::Result<()> {
        Ok(())
    }
}

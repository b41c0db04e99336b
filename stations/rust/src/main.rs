//! A station in Rust: it answers readings by the words of `docs/WEB.md`, as `crates/station` does.
//!
//!     station PORT     listens at that port of loopback; each connection has a thread of its own
//!     station          serves one connection on standard input and output, for socat, inetd or systemd

mod answer;

use answer::Answer;
use std::collections::BTreeMap;
use std::io::{self, Read, Write};
use std::net::TcpListener;
use yotnaghez::{Connection, Event, Request, Role, Stream};

/// The bytes of bodies that a connection takes, shared by its requests.
const BLOCK: usize = 4096;
const BLOCKS: usize = 1024;
/// How often a request may write before the next one does.
const WRITES: usize = 16;

type Answers = BTreeMap<u16, Answer>;

/// Whether all bodies still fit into the blocks.
fn fit(answers: &Answers) -> bool {
    let blocks = answers.values().map(|answer| answer.body().div_ceil(BLOCK));
    blocks.sum::<usize>() <= BLOCKS
}

/// What an event does to the answers. They grow as the bodies come in.
fn hear(connection: &mut Connection, answers: &mut Answers, event: Event) -> io::Result<()> {
    match event {
        Event::Open { id, role, .. } => {
            answers.insert(id, Answer::new(role));
        }
        Event::Ready { id, .. } => {
            let request = connection.request(id)?;
            let answer = of(answers, id);
            answer.take_cards(&request);
            if request.role() == Role::Authorizer {
                answer.complete(is_head(&request));
            }
        }
        Event::Data {
            id,
            stream: Stream::Stdin,
            bytes,
        } => {
            of(answers, id).take(bytes);
            if !fit(answers) {
                of(answers, id).drop_body();
            }
        }
        Event::End {
            id,
            stream,
            measure,
        } => {
            let answer = of(answers, id);
            if stream == Stream::Stdin {
                answer.measure = measure;
            }
            if stream == answer.last_stream() {
                answer.complete(is_head(&connection.request(id)?));
            }
        }
        Event::Fault { id, fault } => of(answers, id).fault(fault),
        Event::Abort { id } => of(answers, id).abort(),
        _ => {}
    }
    Ok(())
}

/// The answer of a request that was opened.
fn of(answers: &mut Answers, id: u16) -> &mut Answer {
    answers
        .get_mut(&id)
        .expect("a request that is told of was opened")
}

fn is_head(request: &Request) -> bool {
    request.param("REQUEST_METHOD") == Some(b"HEAD")
}

/// Says some of an answer, and the end of the request behind it. True once all is said.
fn say(connection: &mut Connection, id: u16, answer: &mut Answer) -> io::Result<bool> {
    let mut request = connection.request(id)?;
    for _ in 0..WRITES {
        answer.said += request.stdout().write(answer.rest())?;
    }
    if !answer.rest().is_empty() {
        return Ok(false);
    }
    request.stderr().write_all(answer.log.as_bytes())?;
    request.finish(answer.status)?;
    Ok(true)
}

/// Rounds: every request says some of its answer, until all is said. So a long answer holds no short one up. The end of
/// a request without KEEP_CONN closes the connection, and then nothing more can be said.
fn go_round(
    connection: &mut Connection,
    answers: &mut Answers,
    to: &mut impl Write,
) -> io::Result<()> {
    let mut refused = None;
    while refused.is_none() && answers.values().any(|answer| answer.is_complete) {
        answers.retain(|&id, answer| {
            let said = answer.is_complete
                && refused.is_none()
                && match say(connection, id, answer) {
                    Ok(said) => said,
                    Err(error) => {
                        refused = Some(error);
                        false
                    }
                };
            !said
        });
        connection.write_to(to)?;
    }
    connection.write_to(to)?;
    match refused {
        Some(error) if connection.is_open() => Err(error),
        _ => Ok(()),
    }
}

/// Reads, and answers what was read, until either side closes the connection.
fn serve(from: &mut impl Read, to: &mut impl Write) -> io::Result<()> {
    let mut connection = Connection::new();
    let mut answers = Answers::new();
    let mut buffer = vec![0; 65_536];
    while connection.is_open() {
        let n = from.read(&mut buffer)?;
        if n == 0 {
            break;
        }
        let mut piece = &buffer[..n];
        while let Some(event) = connection.next_event(&mut piece) {
            hear(&mut connection, &mut answers, event)?;
        }
        go_round(&mut connection, &mut answers, to)?;
    }
    Ok(())
}

fn main() -> io::Result<()> {
    let Some(port) = std::env::args().nth(1) else {
        // A web server that is gone is no error of the station's.
        let _ = serve(&mut io::stdin().lock(), &mut io::stdout().lock());
        return Ok(());
    };
    for stream in TcpListener::bind(format!("127.0.0.1:{port}"))?.incoming() {
        let stream = stream?;
        std::thread::spawn(move || serve(&mut &stream, &mut &stream));
    }
    Ok(())
}

//! Fields of the state, and bytes of the store, set to anything that their types can hold.

use super::words::{bytes, flag, id, number};
use super::Console;
use crate::answer::{Role, Stream};
use crate::queue::{NUMBERS, QUEUE};
use crate::state::{Life, Request, Target, Turn, SLOTS, STORE};

impl Console {
    /// Sets what the words behind `poke` name; none where they are no field or no value of it.
    pub(super) fn poke(&mut self, words: &[&str]) -> Option<()> {
        let connection = &mut self.connection;
        match *words {
            ["open", word] => connection.open = flag(word)?,
            ["occupied", word] => connection.occupied = id(word)?,
            ["held", word] => connection.held = number(word, u64::MAX)?,
            ["header", word] => connection.header = padded(word)?,
            ["target", ref words @ ..] => connection.target = target(words)?,
            ["content", word] => connection.content = number(word, u64::MAX)?,
            ["padding", word] => connection.padding = number(word, u64::MAX)?,
            ["gathered", word] => connection.gathered = number(word, u64::MAX)?,
            ["body", word] => {
                connection.query = padded(word)?;
                connection.body.copy_from_slice(&connection.query[..8]);
            }
            ["byte", place, value] => {
                let place = number(place, STORE as u64 - 1)? as usize;
                self.store[place] = byte(value)?;
            }
            ["number", place, value] => {
                let place = number(place, NUMBERS as u64 - 1)? as usize;
                self.waits.numbers[place] = id(value)?;
            }
            ["mark", place, value] => self.waits.marks[queue_place(place)?] = byte(value)?,
            ["queue", place, value] => self.queue[queue_place(place)?] = byte(value)?,
            ["shown", slot, stream, value] => {
                let stream = match stream {
                    "stdin" => Stream::Stdin,
                    "data" => Stream::Data,
                    _ => return None,
                };
                let count = number(value, u32::MAX.into())? as u32;
                *connection.slots[slot_number(slot)?].shown_mut(stream) = count;
            }
            [field, slot, value] => {
                let slot = slot_number(slot)?;
                poke_request(&mut connection.slots[slot], field, value)?;
            }
            _ => return None,
        }
        Some(())
    }
}

fn byte(word: &str) -> Option<u8> {
    number(word, 255).map(|n| n as u8)
}

fn queue_place(word: &str) -> Option<usize> {
    number(word, QUEUE as u64 - 1).map(|n| n as usize)
}

fn slot_number(word: &str) -> Option<usize> {
    number(word, SLOTS as u64 - 1).map(|n| n as usize)
}

fn poke_request(request: &mut Request, field: &str, value: &str) -> Option<()> {
    match field {
        "id" => request.id = id(value)?,
        "length" => request.length = id(value)?,
        "role" => {
            request.role = match value {
                "1" => Role::Responder,
                "2" => Role::Authorizer,
                "3" => Role::Filter,
                _ => return None,
            }
        }
        "keep" => request.keep = flag(value)?,
        "turn" => {
            request.turn = match value {
                "params" => Turn::Params,
                "stdin" => Turn::Stdin,
                "data" => Turn::Data,
                "done" => Turn::Done,
                _ => return None,
            }
        }
        "spent" => {
            request.life = match value {
                "live" => Life::Live,
                "faulted" => Life::Faulted,
                "aborted" => Life::Aborted,
                _ => return None,
            }
        }
        "out_ended" => request.out_ended = flag(value)?,
        "err_used" => request.err_used = flag(value)?,
        "err_ended" => request.err_ended = flag(value)?,
        _ => return None,
    }
    Some(())
}

fn target(words: &[&str]) -> Option<Target> {
    let slot = |word: &str| number(word, 255).map(|n| n as u8);
    Some(match *words {
        ["skip"] => Target::Skip,
        ["begin", word] => Target::Begin(id(word)?),
        ["query"] => Target::Query,
        ["params", word] => Target::Params(slot(word)?),
        ["stdin", word] => Target::Stdin(slot(word)?),
        ["data", word] => Target::Data(slot(word)?),
        _ => return None,
    })
}

/// At most N bytes, and zeros after them.
fn padded<const N: usize>(word: &str) -> Option<[u8; N]> {
    let given = bytes(word)?;
    let mut all = [0; N];
    all.get_mut(..given.len())?.copy_from_slice(&given);
    Some(all)
}

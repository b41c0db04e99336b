//! Fields of the state, and the values, set to anything that their types can hold.

use crate::answer::Role;
use crate::console::words::{bytes, flag, id, number};
use crate::server::{Request, Server, Target};
use crate::state::{Life, Turn, SLOTS};

/// Sets what the words behind `poke` name; none where they are no field or no value of it.
pub fn poke(server: &mut Server, words: &[&str]) -> Option<()> {
    match *words {
        ["open", word] => server.open = flag(word)?,
        ["occupied", word] => server.occupied = id(word)?,
        ["held", word] => server.held = number(word, u64::MAX)?,
        ["header", word] => server.header = padded(word)?,
        ["target", ref words @ ..] => server.target = target(words)?,
        ["content", word] => server.content = number(word, u64::MAX)?,
        ["padding", word] => server.padding = number(word, u64::MAX)?,
        ["gathered", word] => server.gathered = number(word, u64::MAX)?,
        ["body", word] => server.body = padded(word)?,
        ["values", word] => server.values = padded(word)?,
        [field, slot, value] => {
            let slot = number(slot, SLOTS as u64 - 1)? as usize;
            poke_request(&mut server.slots[slot], field, value)?;
        }
        _ => return None,
    }
    Some(())
}

fn poke_request(request: &mut Request, field: &str, value: &str) -> Option<()> {
    match field {
        "id" => request.id = id(value)?,
        "length" => request.length = id(value)?,
        "role" => {
            request.role = match value {
                "1" => Role::Responder,
                "2" => Role::Authorizer,
                "3" => Role::Filter,
                _ => return None,
            }
        }
        "keep" => request.keep = flag(value)?,
        "turn" => {
            request.turn = match value {
                "params" => Turn::Params,
                "stdin" => Turn::Stdin,
                "data" => Turn::Data,
                "done" => Turn::Done,
                _ => return None,
            }
        }
        "spent" => {
            request.life = match value {
                "live" => Life::Live,
                "faulted" => Life::Faulted,
                "aborted" => Life::Aborted,
                _ => return None,
            }
        }
        "out_ended" => request.out_ended = flag(value)?,
        "err_ended" => request.err_ended = flag(value)?,
        _ => return None,
    }
    Some(())
}

fn target(words: &[&str]) -> Option<Target> {
    let slot = |word: &str| number(word, 255).map(|n| n as u8);
    Some(match *words {
        ["skip"] => Target::Skip,
        ["stdout", word] => Target::Stdout(slot(word)?),
        ["stderr", word] => Target::Stderr(slot(word)?),
        ["end", word] => Target::End(slot(word)?),
        ["values"] => Target::Values,
        ["unknown"] => Target::Unknown,
        _ => return None,
    })
}

/// At most N bytes, and zeros after them.
fn padded<const N: usize>(word: &str) -> Option<[u8; N]> {
    let given = bytes(word)?;
    let mut all = [0; N];
    all.get_mut(..given.len())?.copy_from_slice(&given);
    Some(all)
}

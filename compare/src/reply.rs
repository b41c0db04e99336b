//! The replies that events owe: END_REQUEST for a refused opening, GET_VALUES_RESULT for a query, UNKNOWN_TYPE.

use crate::answer::{Event, Named, Refusal};
use crate::pairs::write_pair;
use crate::wire::{end_body, kind, record_length, write_record};

/// Writes the reply that an event owes; most owe none.
pub fn reply(event: Option<&Event>, buffer: &mut [u8]) -> Result<usize, Refusal> {
    let (kind, id, content) = match event {
        Some(Event::Refuse { id, status }) => (kind::END, *id, end_body(0, *status as u8).to_vec()),
        Some(Event::Query(named)) => (kind::GET_VALUES_RESULT, 0, values(named)),
        Some(Event::Unknown { kind }) => {
            let body = vec![*kind, 0, 0, 0, 0, 0, 0, 0];
            (kind::UNKNOWN_TYPE, 0, body)
        }
        _ => return Ok(0),
    };
    if record_length(content.len()) > buffer.len() {
        return Err(Refusal::NoRoom);
    }
    Ok(write_record(buffer, kind, id, &content))
}

/// The pairs of the values that were named, once each and in this order.
fn values(named: &Named) -> Vec<u8> {
    let known: [(bool, &str, &str); 3] = [
        (named.max_conns, "FCGI_MAX_CONNS", "1"),
        (named.max_reqs, "FCGI_MAX_REQS", "16"),
        (named.mpxs_conns, "FCGI_MPXS_CONNS", "1"),
    ];
    let mut list = Vec::new();
    for (_, name, value) in known.iter().filter(|(wanted, _, _)| *wanted) {
        let mut pair = [0; 32];
        let length = write_pair(&mut pair, name.as_bytes(), value.as_bytes());
        list.extend(&pair[..length.expect("these names are short")]);
    }
    list
}

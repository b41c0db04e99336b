//! The lines that stand for a record.

use super::bytes::joined;
use crate::console::words::id;
use crate::wire::{end_body, kind, record_with, KEEP_CONN};

/// Padding and reserved bytes have to be ignored, so they are not zero.
const PADDING: u8 = 0xff;

/// The bytes of a record that a web server sends, or none where the line begins with another word.
pub fn request_record(words: &[&str]) -> Result<Option<Vec<u8>>, String> {
    let kind = match words[0] {
        "params" => kind::PARAMS,
        "stdin" => kind::STDIN,
        "data" => kind::DATA,
        "values" => kind::GET_VALUES,
        "begin" => return begin(&words[1..]).map(Some),
        "abort" => {
            let [id] = words[1..] else {
                return Err("it is `abort ID`".into());
            };
            return padded(kind::ABORT, id, &[]).map(Some);
        }
        _ => return any_record(words),
    };
    of_stream(kind, words)
}

/// The bytes of a record that a station sends, or none where the line begins with another word.
pub fn reply_record(words: &[&str]) -> Result<Option<Vec<u8>>, String> {
    match words[0] {
        "stdout" => of_stream(kind::STDOUT, words),
        "stderr" => of_stream(kind::STDERR, words),
        "finish" => finish(&words[1..]).map(Some),
        "result" => padded(kind::GET_VALUES_RESULT, "0", &joined(&words[1..])?).map(Some),
        "unknown" => unknown(&words[1..]).map(Some),
        _ => any_record(words),
    }
}

/// A record of any type, or just bytes.
fn any_record(words: &[&str]) -> Result<Option<Vec<u8>>, String> {
    match *words {
        ["record", kind, id, ref content @ ..] => {
            let kind = kind
                .parse()
                .map_err(|_| format!("`{kind}` is no type of a record"))?;
            padded(kind, id, &joined(content)?).map(Some)
        }
        ["record", ..] => Err("it is `record TYPE ID BYTES`".into()),
        ["bytes", ref bytes @ ..] => joined(bytes).map(Some),
        _ => Ok(None),
    }
}

fn of_stream(kind: u8, words: &[&str]) -> Result<Option<Vec<u8>>, String> {
    let [id, ref content @ ..] = words[1..] else {
        return Err(format!("it is `{} ID BYTES`", words[0]));
    };
    padded(kind, id, &joined(content)?).map(Some)
}

/// An END record.
fn finish(words: &[&str]) -> Result<Vec<u8>, String> {
    const FORM: &str = "it is `finish ID STATUS PROTOCOL`";
    let [id, status, protocol] = *words else {
        return Err(FORM.into());
    };
    let (Ok(status), Ok(protocol)) = (status.parse(), protocol.parse()) else {
        return Err(FORM.into());
    };
    let mut body = end_body(status, protocol);
    body[5..].fill(PADDING);
    padded(kind::END, id, &body)
}

/// An UNKNOWN_TYPE record.
fn unknown(words: &[&str]) -> Result<Vec<u8>, String> {
    let kind = match *words {
        [kind] => kind.parse().ok(),
        _ => None,
    };
    let mut body = [PADDING; 8];
    body[0] = kind.ok_or("it is `unknown TYPE`")?;
    padded(kind::UNKNOWN_TYPE, "0", &body)
}

fn begin(words: &[&str]) -> Result<Vec<u8>, String> {
    const FORM: &str = "it is `begin ID responder|authorizer|filter keep|drop`";
    let [id, role, keep] = *words else {
        return Err(FORM.into());
    };
    let role = match role {
        "responder" => 1,
        "authorizer" => 2,
        "filter" => 3,
        _ => return Err(FORM.into()),
    };
    let flags = match keep {
        "keep" => KEEP_CONN,
        "drop" => 0,
        _ => return Err(FORM.into()),
    };
    padded(kind::BEGIN, id, &[0, role, flags, 0, 0, 0, 0, 0])
}

/// A record whose content is padded to a multiple of eight.
fn padded(kind: u8, number: &str, content: &[u8]) -> Result<Vec<u8>, String> {
    let id = id(number).ok_or_else(|| format!("`{number}` is no id"))?;
    if content.len() > 65_535 {
        return Err("a record has at most 65,535 bytes of content".into());
    }
    let padding = content.len().next_multiple_of(8) - content.len();
    Ok(record_with(kind, id, content, 0, &vec![PADDING; padding]))
}

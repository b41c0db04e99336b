//! Lists of parameters for which the end of PARAMS, where names are compared, takes more or less time.

use crate::input::record;
use compare::wire::kind;

/// What the area of a request holds.
const AREA: usize = 4_096;

fn pair(list: &mut Vec<u8>, name: &[u8], value: &[u8]) {
    list.extend([name.len() as u8, value.len() as u8]);
    list.extend(name);
    list.extend(value);
}

/// Sixty names of the kind that nginx sends: its own, then those of a client's headers.
fn nginx() -> Vec<u8> {
    let own = "QUERY_STRING REQUEST_METHOD CONTENT_TYPE CONTENT_LENGTH SCRIPT_NAME REQUEST_URI DOCUMENT_URI \
        DOCUMENT_ROOT SERVER_PROTOCOL REQUEST_SCHEME GATEWAY_INTERFACE SERVER_SOFTWARE REMOTE_ADDR REMOTE_PORT \
        SERVER_ADDR SERVER_PORT SERVER_NAME REDIRECT_STATUS SCRIPT_FILENAME HTTP_HOST HTTP_USER_AGENT HTTP_ACCEPT \
        HTTP_ACCEPT_LANGUAGE HTTP_ACCEPT_ENCODING HTTP_CONNECTION HTTP_COOKIE HTTP_CACHE_CONTROL HTTP_REFERER";
    let mut list = Vec::new();
    for name in own.split_whitespace() {
        pair(&mut list, name.as_bytes(), b"a value of its own");
    }
    for k in 0..32 {
        pair(&mut list, format!("HTTP_X_STATION_{k}").as_bytes(), b"-18");
    }
    list
}

/// Distinct names in order of their length: none, then all of one byte, then those of two.
fn short(list: &mut Vec<u8>, end: usize) {
    let bytes = 0..=255u8;
    let ones = bytes.clone().map(|a| vec![a]);
    let twos = bytes
        .clone()
        .flat_map(|a| (0..=255u8).map(move |b| vec![a, b]));
    for name in std::iter::once(Vec::new()).chain(ones).chain(twos) {
        if list.len() + 2 + name.len() > end {
            break;
        }
        pair(list, &name, b"");
    }
}

/// As many names as an area holds.
fn most() -> Vec<u8> {
    let mut list = Vec::new();
    short(&mut list, AREA);
    list
}

/// Names of nine bytes with the same last eight, which is all that a key keeps of them; then short names; then one
/// more of the first kind. For each of the first, all later pairs are read.
fn longest() -> Vec<u8> {
    let name = |k: u8| [&[k], &b"the same"[..]].concat();
    // With more or fewer of them it takes less time.
    let keyed = 160;
    let mut list = Vec::new();
    for k in 0..keyed {
        pair(&mut list, &name(k), b"");
    }
    let last = name(keyed);
    short(&mut list, AREA - 2 - last.len());
    pair(&mut list, &last, b"");
    list
}

/// A request whose PARAMS are that list, with or without the record that ends them.
pub fn request(list: &str, ended: bool) -> Option<Vec<u8>> {
    let list = match list {
        "nginx" => nginx(),
        "most" => most(),
        "longest" => longest(),
        _ => return None,
    };
    let mut bytes = Vec::new();
    record(&mut bytes, kind::BEGIN, 1, &[0, 1, 1, 0, 0, 0, 0, 0]);
    record(&mut bytes, kind::PARAMS, 1, &list);
    if ended {
        record(&mut bytes, kind::PARAMS, 1, &[]);
    }
    Some(bytes)
}

//! What is done at the end of both runs to see what is left of each request: its area and its counts by name, and what
//! no command shows by what it does to calls and records.

use super::run::Whose;
use crate::console::words::hex;
use crate::random::Random;
use crate::scripts::own::Own;
use crate::wire::{kind, record_with};

/// The same lines in both runs.
pub fn tail(random: &mut Random, requests: &[Own]) -> Vec<(Whose, String)> {
    let mut lines = all();
    for own in requests {
        lines.extend(left(own));
    }
    for own in requests {
        let (id, whose) = (own.id, Whose::Of(own.id));
        lines.push((whose, own.value.clone()));
        lines.push((whose, format!("walk {id}")));
        lines.push((whose, format!("say {id} stdout 2d 64")));
        // Without data, it shows whether STDERR is ended and does not make it used, which the finish then shows.
        lines.push((whose, format!("say {id} stderr - 64")));
        if random.one_in(3) {
            let stream = random.pick(&["stdout", "stderr"]);
            lines.push((whose, format!("end {id} {stream} 64")));
        }
    }
    for own in requests {
        let records = rest_of(random, own.id);
        lines.push((Whose::Bytes, format!("feed 65536 {}", hex(&records))));
        lines.extend(left(own));
    }
    for own in requests.iter().filter(|own| own.keep == Some(true)) {
        lines.push((Whose::Of(own.id), format!("finish {} 7 64", own.id)));
    }
    lines.extend(all());
    // One finish without KEEP_CONN closes the connection, so of these requests one shows it.
    let dropped: Vec<u16> = requests
        .iter()
        .filter(|own| own.keep == Some(false))
        .map(|own| own.id)
        .collect();
    if !dropped.is_empty() {
        let id = random.pick(&dropped);
        lines.push((Whose::Of(id), format!("finish {id} 7 64")));
    }
    lines
}

/// How many requests are active, and what is not zero in the store.
fn all() -> Vec<(Whose, String)> {
    vec![(Whose::All, "active".into()), (Whose::All, "store".into())]
}

fn left(own: &Own) -> [(Whose, String); 2] {
    ["area", "counts"].map(|call| (Whose::Of(own.id), format!("{call} {}", own.id)))
}

/// Records that end the streams of a filter from one of them on: what they tell depends on the role, the turn and on
/// whether the request is spent.
fn rest_of(random: &mut Random, id: u16) -> Vec<u8> {
    let from = random.index(3);
    let mut bytes = Vec::new();
    for kind in &[kind::PARAMS, kind::STDIN, kind::DATA][from..] {
        if *kind != kind::PARAMS {
            bytes.extend(record_with(*kind, id, b"-18", 0, &[]));
        }
        bytes.extend(record_with(*kind, id, &[], 0, &[]));
    }
    bytes
}

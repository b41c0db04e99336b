//! Row 9 of the server's end: a state out of shape, condition by condition. It is asked before anything else, of a
//! closed connection too.

use super::{Server, Target, BODY, VALUES};
use crate::state::{AREA, SLOTS};
use crate::wire::HEADER;

impl Server {
    pub fn in_shape(&self) -> bool {
        self.ids_fit() && self.lengths_fit() && self.counts_fit() && self.target_fits()
    }

    /// No open request has id 0, and no two have the same.
    fn ids_fit(&self) -> bool {
        (0..SLOTS).filter(|&slot| self.taken(slot)).all(|slot| {
            let id = self.slots[slot].id;
            id != 0
                && (slot + 1..SLOTS).all(|other| !self.taken(other) || self.slots[other].id != id)
        })
    }

    /// Free slots too.
    fn lengths_fit(&self) -> bool {
        self.slots
            .iter()
            .all(|request| usize::from(request.length) <= AREA)
    }

    fn counts_fit(&self) -> bool {
        self.held < HEADER as u64 && self.content <= 65_535 && self.padding <= 255
    }

    /// Asked of the target whatever is left of the content. The counts may be any numbers: no sum of two is formed.
    fn target_fits(&self) -> bool {
        match self.target {
            Target::Skip => true,
            Target::Stdout(slot) | Target::Stderr(slot) => self.has_request(slot),
            Target::End(slot) => self.has_request(slot) && self.body_fits(),
            Target::Unknown => self.body_fits(),
            Target::Values => self
                .missing_of(VALUES)
                .is_some_and(|room| self.content <= room),
        }
    }

    fn has_request(&self, slot: u8) -> bool {
        usize::from(slot) < SLOTS && self.taken(usize::from(slot))
    }

    fn body_fits(&self) -> bool {
        self.missing_of(BODY) == Some(self.content)
    }

    /// What the gathered bytes lack of so many; none where they are more.
    fn missing_of(&self, all: usize) -> Option<u64> {
        (all as u64).checked_sub(self.gathered)
    }
}

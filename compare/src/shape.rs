//! Row 9: a state out of shape. One condition after the other, as the table has them; nothing else is out of shape.

use crate::state::{Connection, Target, AREA, BEGIN_BODY, QUERY, SLOTS};
use crate::wire::HEADER;

impl Connection {
    pub fn in_shape(&self) -> bool {
        self.lengths_fit() && self.ids_fit() && self.counts_fit() && self.target_fits()
    }

    /// Free slots too.
    fn lengths_fit(&self) -> bool {
        self.slots
            .iter()
            .all(|request| usize::from(request.length) <= AREA)
    }

    /// No active request has id 0, and no two have the same.
    fn ids_fit(&self) -> bool {
        (0..SLOTS).filter(|&slot| self.taken(slot)).all(|slot| {
            let id = self.slots[slot].id;
            id != 0
                && (slot + 1..SLOTS).all(|other| !self.taken(other) || self.slots[other].id != id)
        })
    }

    fn counts_fit(&self) -> bool {
        self.held < HEADER as u64 && self.content <= 65_535 && self.padding <= 255
    }

    /// Asked of the target whatever is left of the content. The counts may be any numbers: no sum of two is formed.
    fn target_fits(&self) -> bool {
        match self.target {
            Target::Skip => true,
            Target::Begin(id) => {
                self.missing_of(BEGIN_BODY) == Some(self.content) && self.may_open(id)
            }
            Target::Query => self
                .missing_of(QUERY)
                .is_some_and(|room| self.content <= room),
            Target::Stdin(slot) | Target::Data(slot) => self.has_request(slot),
            Target::Params(slot) => {
                self.has_request(slot)
                    && (AREA as u64)
                        .checked_sub(self.slots[usize::from(slot)].length.into())
                        .is_some_and(|room| self.content <= room)
            }
        }
    }

    /// What the gathered bytes lack of so many; none where they are more.
    fn missing_of(&self, all: usize) -> Option<u64> {
        (all as u64).checked_sub(self.gathered)
    }

    fn may_open(&self, id: u16) -> bool {
        id != 0 && self.find(id).is_none()
    }

    fn has_request(&self, slot: u8) -> bool {
        usize::from(slot) < SLOTS && self.taken(usize::from(slot))
    }
}

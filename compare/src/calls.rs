//! The calls that read: value by name and its sister, pairs by number and as a walk, the number of active requests.

use crate::answer::{Refusal, Source};
use crate::pairs::{Pair, Pairs};
use crate::state::{area, Connection, Life, STORE};

impl Connection {
    /// Rows 9 and 1, which every call on a connection asks before its own.
    pub(crate) fn admit(&self) -> Result<(), Refusal> {
        if !self.in_shape() {
            return Err(Refusal::OutOfShape);
        }
        if !self.open {
            return Err(Refusal::Closed);
        }
        Ok(())
    }

    /// Rows 9, 1 and 3: the slot of an active request. In shape no active request has id 0.
    pub(crate) fn admit_request(&self, id: u16) -> Result<usize, Refusal> {
        self.admit()?;
        self.find(id).ok_or(Refusal::NotActive)
    }

    /// Row 2, before the others, of the calls that are lent the store.
    pub(crate) fn admit_store(store: &[u8]) -> Result<(), Refusal> {
        if store.len() != STORE {
            return Err(Refusal::StoreSize);
        }
        Ok(())
    }

    /// The list of a request whose parameters may be read.
    fn list<'a>(&self, store: &'a [u8], id: u16) -> Result<&'a [u8], Refusal> {
        Self::admit_store(store)?;
        let slot = self.admit_request(id)?;
        let request = &self.slots[slot];
        if !request.params_ended() || request.life == Life::Faulted {
            return Err(Refusal::NotReady);
        }
        Ok(&store[area(slot)][..usize::from(request.length)])
    }

    fn find_value<'a>(
        &self,
        store: &'a [u8],
        id: u16,
        name: &[u8],
    ) -> Result<Option<&'a [u8]>, Refusal> {
        let list = self.list(store, id)?;
        Ok(Pairs::new(list)
            .find(|pair| pair.name(list) == name)
            .map(|pair| pair.value(list)))
    }

    /// The value of the first pair of that name, or else the fallback, also when refused.
    pub fn value<'a>(&self, store: &'a [u8], id: u16, name: &[u8], fallback: &'a [u8]) -> &'a [u8] {
        match self.find_value(store, id, name) {
            Ok(Some(value)) => value,
            Ok(None) | Err(_) => fallback,
        }
    }

    /// Which of the two `value` answers, or why it is refused.
    pub fn value_source(&self, store: &[u8], id: u16, name: &[u8]) -> Result<Source, Refusal> {
        Ok(match self.find_value(store, id, name)? {
            Some(_) => Source::Store,
            None => Source::Fallback,
        })
    }

    /// Pair number k, from 0. Its places count from the start of the request's area.
    pub fn pair_at(&self, store: &[u8], id: u16, k: u64) -> Result<Pair, Refusal> {
        let list = self.list(store, id)?;
        let k = usize::try_from(k).map_err(|_| Refusal::NoPair)?;
        Pairs::new(list).nth(k).ok_or(Refusal::NoPair)
    }

    /// The pairs in order, from the first one on.
    pub fn walk<'a>(&self, store: &'a [u8], id: u16) -> Result<Pairs<'a>, Refusal> {
        Ok(Pairs::new(self.list(store, id)?))
    }

    pub fn active(&self) -> Result<u32, Refusal> {
        self.admit()?;
        Ok(self.occupied.count_ones())
    }
}

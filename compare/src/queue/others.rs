//! The other calls of a connection, with what waits lent to them: row 9 is about both, and a close drops what waits.

use super::Waits;
use crate::answer::{Refusal, Source, Step};
use crate::pairs::{Pair, Pairs};
use crate::state::{Connection, STORE};

impl Waits {
    /// Refused, it leaves what waits as it was.
    pub fn start(&mut self, connection: &mut Connection, store: &mut [u8]) -> Result<(), Refusal> {
        connection.start(store)?;
        self.drop_all();
        Ok(())
    }

    pub fn step(
        &mut self,
        connection: &mut Connection,
        store: &mut [u8],
        piece: &[u8],
    ) -> Result<Step, Refusal> {
        self.admit_stored(connection, store)?;
        let step = connection.step(store, piece);
        self.follow(connection, step)
    }

    pub fn next_event(
        &mut self,
        connection: &mut Connection,
        store: &mut [u8],
        piece: &[u8],
    ) -> Result<Step, Refusal> {
        self.admit_stored(connection, store)?;
        let step = connection.next_event(store, piece);
        self.follow(connection, step)
    }

    /// A step that is not refused finds the connection open, so one that leaves it closed has closed it.
    fn follow(
        &mut self,
        connection: &Connection,
        step: Result<Step, Refusal>,
    ) -> Result<Step, Refusal> {
        if step.is_ok() && !connection.open {
            self.drop_all();
        }
        step
    }

    /// Row 9 by what waits, of a call that asks row 2 before it.
    fn admit_stored(&self, connection: &Connection, store: &[u8]) -> Result<(), Refusal> {
        if store.len() != STORE {
            return Ok(());
        }
        self.admit_shape(connection)
    }

    pub fn value<'a>(
        &self,
        connection: &Connection,
        store: &'a [u8],
        id: u16,
        name: &[u8],
        fallback: &'a [u8],
    ) -> &'a [u8] {
        match self.admit_stored(connection, store) {
            Ok(()) => connection.value(store, id, name, fallback),
            Err(_) => fallback,
        }
    }

    pub fn value_source(
        &self,
        connection: &Connection,
        store: &[u8],
        id: u16,
        name: &[u8],
    ) -> Result<Source, Refusal> {
        self.admit_stored(connection, store)?;
        connection.value_source(store, id, name)
    }

    pub fn pair_at(
        &self,
        connection: &Connection,
        store: &[u8],
        id: u16,
        k: u64,
    ) -> Result<Pair, Refusal> {
        self.admit_stored(connection, store)?;
        connection.pair_at(store, id, k)
    }

    pub fn walk<'a>(
        &self,
        connection: &Connection,
        store: &'a [u8],
        id: u16,
    ) -> Result<Pairs<'a>, Refusal> {
        self.admit_stored(connection, store)?;
        connection.walk(store, id)
    }

    pub fn active(&self, connection: &Connection) -> Result<u32, Refusal> {
        self.admit_shape(connection)?;
        connection.active()
    }
}

//! Start, step and next_event: the bytes of a connection, read one phase at a time or from event to event.

use crate::answer::{Close, Event, Fault, Named, Refusal, Role, Status, Step, Stream};
use crate::pairs::{malformed_at, repeats_a_name, Pairs};
use crate::state::{area, Connection, Life, Request, Target, Turn, AREA, BEGIN_BODY, QUERY, STORE};
use crate::stated::word_for;
use crate::wire::{kind, Header, HEADER, KEEP_CONN, VERSION};

impl Connection {
    /// A new connection, whatever was before; refused, a closed one.
    pub fn start(&mut self, store: &mut [u8]) -> Result<(), Refusal> {
        if store.len() != STORE {
            *self = Connection::closed();
            return Err(Refusal::StoreSize);
        }
        store.fill(0);
        *self = Connection {
            open: true,
            ..Connection::closed()
        };
        Ok(())
    }

    pub fn step(&mut self, store: &mut [u8], piece: &[u8]) -> Result<Step, Refusal> {
        self.step_with::<true>(store, piece)
    }

    /// A step that leaves row 9 out where `SHAPE` is false: for measuring what row 9 costs, on states in shape.
    pub fn step_with<const SHAPE: bool>(
        &mut self,
        store: &mut [u8],
        piece: &[u8],
    ) -> Result<Step, Refusal> {
        if store.len() != STORE {
            return Err(Refusal::StoreSize);
        }
        if SHAPE && !self.in_shape() {
            return Err(Refusal::OutOfShape);
        }
        if !self.open {
            return Err(Refusal::Closed);
        }
        Ok(if piece.is_empty() {
            Step {
                used: 0,
                event: None,
            }
        } else if self.content > 0 {
            self.take_content(store, piece)
        } else if self.padding > 0 {
            self.take_padding(piece)
        } else {
            self.take_header(store, piece)
        })
    }

    /// Steps one after another, to one that tells an event or to the end of the piece; a single one where it is empty.
    pub fn next_event(&mut self, store: &mut [u8], piece: &[u8]) -> Result<Step, Refusal> {
        self.next_with::<true>(store, piece)
    }

    /// The same by steps that leave row 9 out where `SHAPE` is false. Only the first step can be refused: a step that
    /// tells nothing keeps the connection open and in shape. So no bytes were used where it ends in a refusal.
    pub fn next_with<const SHAPE: bool>(
        &mut self,
        store: &mut [u8],
        piece: &[u8],
    ) -> Result<Step, Refusal> {
        let mut used = 0;
        loop {
            // The answer is handed on as it is: `?` would copy it, which takes half the time of a step without row 9.
            match self.step_with::<SHAPE>(store, &piece[used..]) {
                Ok(step) if step.event.is_none() && used + step.used < piece.len() => {
                    used += step.used;
                }
                Ok(mut step) => {
                    step.used += used;
                    return Ok(step);
                }
                refused => return refused,
            }
        }
    }

    /// As `next_event`, with row 9 tested at the first step alone: no later one can be refused. For measuring, since an
    /// ordinary receiver that is to be quick would do so.
    pub fn next_once(&mut self, store: &mut [u8], piece: &[u8]) -> Result<Step, Refusal> {
        match self.step_with::<true>(store, piece) {
            Ok(step) if step.event.is_none() && step.used < piece.len() => {
                let used = step.used;
                let mut next = self.next_with::<false>(store, &piece[used..]);
                if let Ok(step) = &mut next {
                    step.used += used;
                }
                next
            }
            told => told,
        }
    }

    fn take_padding(&mut self, piece: &[u8]) -> Step {
        let used = at_most(piece, self.padding);
        self.padding -= used as u64;
        Step { used, event: None }
    }

    fn take_header(&mut self, store: &mut [u8], piece: &[u8]) -> Step {
        let held = self.held as usize;
        let used = at_most(piece, (HEADER - held) as u64);
        self.header[held..held + used].copy_from_slice(&piece[..used]);
        if held + used < HEADER {
            self.held += used as u64;
            return Step { used, event: None };
        }
        let header = Header::read(&self.header);
        self.held = 0;
        self.header = [0; HEADER];
        self.forget_body();
        let event = self.judge(header, store);
        Step { used, event }
    }

    fn take_content(&mut self, store: &mut [u8], piece: &[u8]) -> Step {
        let used = at_most(piece, self.content);
        let bytes = &piece[..used];
        let target = self.target;
        self.content -= used as u64;
        let complete = self.content == 0;
        if complete {
            self.target = Target::Skip;
        }
        let event = match target {
            Target::Skip => None,
            Target::Begin(id) => {
                gather(&mut self.body, &mut self.gathered, bytes);
                complete.then(|| self.open_request(id))
            }
            Target::Query => {
                gather(&mut self.query, &mut self.gathered, bytes);
                complete.then(|| self.answer_query(store))
            }
            Target::Params(slot) => {
                let slot = usize::from(slot);
                let length = &mut self.slots[slot].length;
                let from = usize::from(*length);
                store[area(slot)][from..from + used].copy_from_slice(bytes);
                *length += used as u16;
                None
            }
            Target::Stdin(slot) => Some(self.show(slot, Stream::Stdin, used)),
            Target::Data(slot) => Some(self.show(slot, Stream::Data, used)),
        };
        Step { used, event }
    }

    fn show(&mut self, slot: u8, stream: Stream, count: usize) -> Event {
        let request = &mut self.slots[usize::from(slot)];
        let id = request.id;
        let shown = request.shown_mut(stream);
        // A record has at most 65,535 bytes of content.
        *shown = shown.saturating_add(count as u32);
        Event::Data { id, stream, count }
    }

    fn close_by(&mut self, store: &mut [u8], cause: Close) -> Event {
        self.close(store);
        Event::Closed(cause)
    }

    /// The eighth header byte is in. What nobody claims below is skipped.
    fn judge(&mut self, header: Header, store: &mut [u8]) -> Option<Event> {
        if header.version != VERSION {
            return Some(self.close_by(store, Close::Version));
        }
        self.content = header.content.into();
        self.padding = header.padding.into();
        self.target = Target::Skip;
        if header.id == 0 {
            return self.judge_management(header, store);
        }
        match self.find(header.id) {
            None => self.judge_inactive(header, store),
            Some(slot) if self.slots[slot].spent() => None,
            Some(slot) => self.judge_live(slot, header, store),
        }
    }

    fn judge_management(&mut self, header: Header, store: &mut [u8]) -> Option<Event> {
        if header.kind != kind::GET_VALUES {
            return Some(Event::Unknown { kind: header.kind });
        }
        if usize::from(header.content) > QUERY {
            return Some(self.close_by(store, Close::QueryLength));
        }
        if header.content == 0 {
            return Some(Event::Query(Named::default()));
        }
        self.target = Target::Query;
        None
    }

    fn judge_inactive(&mut self, header: Header, store: &mut [u8]) -> Option<Event> {
        if header.kind != kind::BEGIN {
            return None;
        }
        if usize::from(header.content) != BEGIN_BODY {
            return Some(self.close_by(store, Close::BeginLength));
        }
        self.target = Target::Begin(header.id);
        None
    }

    fn judge_live(&mut self, slot: usize, header: Header, store: &mut [u8]) -> Option<Event> {
        let outcome = match header.kind {
            kind::BEGIN => Err(Fault::BeginAgain),
            kind::ABORT => {
                self.slots[slot].life = Life::Aborted;
                Ok(Some(Event::Abort { id: header.id }))
            }
            kind::PARAMS => self.judge_params(slot, header, &store[area(slot)]),
            kind::STDIN => self.judge_input(slot, header, Stream::Stdin, &store[area(slot)]),
            kind::DATA => self.judge_input(slot, header, Stream::Data, &store[area(slot)]),
            _ => Err(Fault::WrongType),
        };
        outcome.unwrap_or_else(|fault| {
            store[area(slot)].fill(0);
            self.slots[slot].length = 0;
            (self.slots[slot].stdin_shown, self.slots[slot].data_shown) = (0, 0);
            self.slots[slot].life = Life::Faulted;
            Some(Event::Fault {
                id: header.id,
                fault,
            })
        })
    }

    fn judge_params(
        &mut self,
        slot: usize,
        header: Header,
        area: &[u8],
    ) -> Result<Option<Event>, Fault> {
        let request = &mut self.slots[slot];
        let length = usize::from(request.length);
        if request.turn != Turn::Params {
            return Err(Fault::OutOfTurn);
        }
        if length + usize::from(header.content) > AREA {
            return Err(Fault::TooLong);
        }
        if header.content > 0 {
            self.target = Target::Params(slot as u8);
            return Ok(None);
        }
        if let Some(place) = malformed_at(&area[..length]) {
            // An area's places take up 12 bits.
            let place = place as u16;
            return Err(Fault::Malformed { place });
        }
        if repeats_a_name(&area[..length]) {
            return Err(Fault::Repeated);
        }
        request.turn = match request.role {
            Role::Responder | Role::Filter => Turn::Stdin,
            Role::Authorizer => Turn::Done,
        };
        Ok(Some(Event::Ready {
            id: header.id,
            length: request.length,
        }))
    }

    fn judge_input(
        &mut self,
        slot: usize,
        header: Header,
        stream: Stream,
        area: &[u8],
    ) -> Result<Option<Event>, Fault> {
        let request = &mut self.slots[slot];
        let (turn, target) = match stream {
            Stream::Stdin => (Turn::Stdin, Target::Stdin(slot as u8)),
            Stream::Data => (Turn::Data, Target::Data(slot as u8)),
        };
        if request.turn != turn {
            return Err(Fault::OutOfTurn);
        }
        if header.content > 0 {
            self.target = target;
            return Ok(None);
        }
        request.turn = match (stream, request.role) {
            (Stream::Stdin, Role::Filter) => Turn::Data,
            _ => Turn::Done,
        };
        let list = &area[..usize::from(request.length)];
        Ok(Some(Event::End {
            id: header.id,
            stream,
            word: word_for(request.shown(stream), list, stream),
        }))
    }

    /// A BEGIN body is whole. The role is looked at before the room; the store is not touched.
    fn open_request(&mut self, id: u16) -> Event {
        let body = self.body;
        self.forget_body();
        let Some(role) = Role::of(u16::from_be_bytes([body[0], body[1]])) else {
            let status = Status::UnknownRole;
            return Event::Refuse { id, status };
        };
        let Some(slot) = self.lowest_free() else {
            let status = Status::Overloaded;
            return Event::Refuse { id, status };
        };
        let keep = body[2] & KEEP_CONN != 0;
        self.occupied |= 1 << slot;
        self.slots[slot] = Request {
            id,
            role,
            keep,
            ..Request::FREE
        };
        Event::Open { id, role, keep }
    }

    /// A query is whole. Values, other names and names that come twice don't matter.
    fn answer_query(&mut self, store: &mut [u8]) -> Event {
        let length = self.gathered as usize;
        self.forget_body();
        let list = &self.query[..length];
        if let Some(place) = malformed_at(list) {
            let place = place as u16;
            return self.close_by(store, Close::QueryMalformed { place });
        }
        let mut named = Named::default();
        for pair in Pairs::new(list) {
            match pair.name(list) {
                b"FCGI_MAX_CONNS" => named.max_conns = true,
                b"FCGI_MAX_REQS" => named.max_reqs = true,
                b"FCGI_MPXS_CONNS" => named.mpxs_conns = true,
                _ => {}
            }
        }
        Event::Query(named)
    }
}

fn at_most(piece: &[u8], needed: u64) -> usize {
    (piece.len() as u64).min(needed) as usize
}

fn gather(body: &mut [u8], gathered: &mut u64, bytes: &[u8]) {
    let from = *gathered as usize;
    body[from..from + bytes.len()].copy_from_slice(bytes);
    *gathered += bytes.len() as u64;
}

//! What waits, held to lists of what was said: each slot has one, and the pump takes from its head.

mod common;

use common::{record, Station, DROP, KEEP};
use compare::answer::{Output, Refusal};
use compare::queue::{Pumped, Waits, QUEUE, ROOM};
use compare::random::Random;
use compare::state::SLOTS;
use compare::wire::{end_body, kind, write_record};
use std::collections::VecDeque;

#[derive(Clone, Copy, Debug, PartialEq)]
enum Item {
    Byte(Output, u8),
    End(Output),
    Finish(u32),
}

/// A request as a list of what waits for it.
#[derive(Clone, Default)]
struct Listed {
    items: VecDeque<Item>,
    out_ended: bool,
    err_used: bool,
    err_ended: bool,
}

impl Listed {
    fn leaving(&self) -> bool {
        matches!(self.items.back(), Some(Item::Finish(_)))
    }

    fn ended(&self, output: Output) -> bool {
        let ended = match output {
            Output::Stdout => self.out_ended,
            Output::Stderr => self.err_ended,
        };
        ended || self.leaving()
    }

    fn bytes(&self) -> usize {
        let byte = |item: &&Item| matches!(item, Item::Byte(..));
        self.items.iter().filter(byte).count()
    }

    fn say(&mut self, output: Output, data: &[u8]) -> Result<(), Refusal> {
        if self.ended(output) {
            return Err(Refusal::StreamEnded);
        }
        if self.bytes() + data.len() > 1_024 {
            return Err(Refusal::Waiting);
        }
        self.err_used |= output == Output::Stderr && !data.is_empty();
        self.items
            .extend(data.iter().map(|&byte| Item::Byte(output, byte)));
        Ok(())
    }

    fn end(&mut self, output: Output) -> Result<(), Refusal> {
        if self.ended(output) {
            return Err(Refusal::StreamEnded);
        }
        match output {
            Output::Stdout => self.out_ended = true,
            Output::Stderr => self.err_ended = true,
        }
        self.items.push_back(Item::End(output));
        Ok(())
    }

    fn finish(&mut self, status: u32) -> Result<(), Refusal> {
        if self.leaving() {
            return Err(Refusal::StreamEnded);
        }
        if !self.out_ended {
            self.end(Output::Stdout)?;
        }
        if self.err_used && !self.err_ended {
            self.end(Output::Stderr)?;
        }
        self.items.push_back(Item::Finish(status));
        Ok(())
    }

    /// The next record, as it is written.
    fn record(&mut self, id: u16) -> Option<Vec<u8>> {
        let mut buffer = [0; 520];
        let n = match self.items.pop_front()? {
            Item::End(output) => write_record(&mut buffer, output as u8, id, &[]),
            Item::Finish(status) => write_record(&mut buffer, kind::END, id, &end_body(status, 0)),
            Item::Byte(output, byte) => {
                let mut data = vec![byte];
                while let Some(&Item::Byte(next, byte)) = self.items.front() {
                    if next != output || data.len() == 512 {
                        break;
                    }
                    data.push(byte);
                    self.items.pop_front();
                }
                write_record(&mut buffer, output as u8, id, &data)
            }
        };
        Some(buffer[..n].to_vec())
    }
}

/// Sixteen requests with ids 1 to 16, each in the slot below its id.
fn full(body: [u8; 8]) -> Station {
    let mut station = Station::new();
    for id in 1..=SLOTS as u16 {
        station.open(id, body);
        station.feed(&record(kind::PARAMS, id, &[]));
    }
    station
}

#[test]
fn the_pump_takes_from_the_head_of_lists() {
    for seed in 0..40 {
        let mut random = Random::new(seed);
        let mut station = full(KEEP);
        let (mut waits, mut queue) = (Waits::default(), vec![0xcc; QUEUE]);
        let mut lists = vec![Some(Listed::default()); SLOTS];
        let mut next = 0;
        for _ in 0..2_000 {
            let slot = random.index(SLOTS);
            let id = slot as u16 + 1;
            let output = random.pick(&[Output::Stdout, Output::Stderr]);
            let connection = &mut station.connection;
            let n = random.pick(&[0, 1, 1, 2, 30, 300, 1_024]);
            let data = random.bytes(n);
            let list = &mut lists[slot];
            let refused = Err(Refusal::NotActive);
            match random.below(20) {
                0..=9 => assert_eq!(
                    waits.queue_say(connection, &mut queue, id, output, &data),
                    list.as_mut()
                        .map_or(refused, |list| list.say(output, &data))
                ),
                10 => assert_eq!(
                    waits.queue_end(connection, id, output),
                    list.as_mut().map_or(refused, |list| list.end(output))
                ),
                11 => assert_eq!(
                    waits.queue_finish(connection, id, 7 * u32::from(id)),
                    list.as_mut()
                        .map_or(refused, |list| list.finish(7 * u32::from(id)))
                ),
                _ => {
                    let allowance = random.index(20);
                    let mut buffer = vec![0xee; 520 * allowance];
                    let pumped = waits
                        .pump(
                            connection,
                            &mut station.store,
                            &mut queue,
                            allowance as u64,
                            &mut buffer,
                        )
                        .unwrap();
                    let mut written = Vec::new();
                    let mut records = 0;
                    while records < allowance as u64 {
                        let waiting = |slot: &usize| {
                            let list = lists[*slot].as_ref();
                            list.is_some_and(|list| !list.items.is_empty())
                        };
                        let Some(slot) = (next..next + SLOTS).map(|n| n % SLOTS).find(waiting)
                        else {
                            break;
                        };
                        let list = lists[slot].as_mut().unwrap();
                        let leaves = matches!(list.items.front(), Some(Item::Finish(_)));
                        written.extend(list.record(slot as u16 + 1).unwrap());
                        if leaves {
                            lists[slot] = None;
                        }
                        records += 1;
                        next = (slot + 1) % SLOTS;
                    }
                    let wrote = written.len();
                    let closed = false;
                    assert_eq!(
                        pumped,
                        Pumped {
                            records,
                            wrote,
                            closed
                        }
                    );
                    assert!(
                        buffer[..wrote] == written && buffer[wrote..].iter().all(|&b| b == 0xee)
                    );
                }
            }
            let taken: u32 = lists.iter().filter(|list| list.is_some()).count() as u32;
            assert_eq!(waits.active(&station.connection), Ok(taken));
        }
    }
}

/// The pump by the largest allowances that a buffer can have, and by those that none can.
#[test]
fn allowances_that_no_buffer_has_room_for() {
    let mut station = full(DROP);
    let (mut waits, mut queue) = (Waits::default(), vec![0; QUEUE]);
    let data = [b'x'; ROOM];
    for id in 1..=SLOTS as u16 {
        waits
            .queue_say(
                &mut station.connection,
                &mut queue,
                id,
                Output::Stdout,
                &data,
            )
            .unwrap();
        waits.queue_finish(&mut station.connection, id, 0).unwrap();
    }
    let mut buffer = vec![0; 520 * 200];
    for allowance in [201, u64::MAX, u64::MAX / 520 + 1, 1 << 61, 1 << 63] {
        let refused = waits.pump(
            &mut station.connection,
            &mut station.store,
            &mut queue,
            allowance,
            &mut buffer,
        );
        assert_eq!(refused, Err(Refusal::NoRoom));
    }
    // Two records of data each, an end each, and the first END, which closes.
    let pumped = waits
        .pump(
            &mut station.connection,
            &mut station.store,
            &mut queue,
            200,
            &mut buffer,
        )
        .unwrap();
    let wrote = SLOTS * (2 * 520 + 8) + 16;
    let records = 3 * SLOTS as u64 + 1;
    assert_eq!(
        pumped,
        Pumped {
            records,
            wrote,
            closed: true
        }
    );
    assert_eq!(waits.numbers, Waits::default().numbers);
    assert_eq!(waits.active(&station.connection), Err(Refusal::Closed));
}

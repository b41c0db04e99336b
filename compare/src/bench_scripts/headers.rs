//! Headers of which each field is right or wrong by chance, so that often several reasons to close meet in one.

use super::Draft;
use crate::wire::{kind, record_with, Header, HEADER};

impl Draft {
    /// A few requests, some of whose streams are ended, and then one header after another, to a close.
    pub(super) fn headers(&mut self) {
        self.choose_cut();
        for _ in 0..self.random.within(2, 5) {
            self.line("start");
            for _ in 0..self.random.within(0, 3) {
                let id = self.free_id();
                self.line(format!("open {id} 1 keep 16"));
            }
            if self.random.one_in(2) {
                self.end_streams();
            }
            for _ in 0..6 {
                let bytes = self.any_header();
                if !self.send(&bytes) {
                    break;
                }
            }
            if self.random.one_in(4) {
                self.line("opened");
            }
        }
    }

    fn end_streams(&mut self) {
        let id = self.open_id();
        for kind in [kind::STDOUT, kind::STDERR] {
            if self.open_ids().contains(&id) && self.random.one_in(2) {
                self.step_line(&record_with(kind, id, &[], 0, &[]));
            }
        }
    }

    /// A header with the content that it announces, mostly; of some only the header.
    fn any_header(&mut self) -> Vec<u8> {
        let kind = match self.random.below(12) {
            0 => self.random.pick(&[0, 1, 2, 4, 5, 8, 9, 12, 128, 255]),
            1..=3 => kind::END,
            4 | 5 => kind::STDOUT,
            6 | 7 => kind::STDERR,
            8 | 9 => kind::GET_VALUES_RESULT,
            _ => kind::UNKNOWN_TYPE,
        };
        let management = matches!(kind, kind::GET_VALUES_RESULT | kind::UNKNOWN_TYPE);
        let id = match self.random.below(6) {
            0 => 0,
            1 => self.any_id(),
            2..=4 if management => 0,
            _ => self.open_id(),
        };
        let content = match self.random.below(8) {
            0 => self
                .random
                .pick(&[7, 9, 0x0800, 511, 512, 513, 514, 0x0108, 65_535]),
            1 | 2 => 0,
            _ => 8,
        };
        let version = self.random.pick(&[1, 1, 1, 1, 1, 1, 1, 1, 1, 0, 2, 255]);
        let header = Header {
            version,
            kind,
            id,
            content,
            padding: self.random.pick(&[0, 0, 1, 8]),
        };
        let mut bytes = header.to_bytes().to_vec();
        bytes[HEADER - 1] = self.random.byte();
        if content <= 512 {
            let content = self.content(kind, content.into());
            bytes.extend(content);
            bytes.extend(self.random.bytes(header.padding.into()));
        }
        bytes
    }

    /// Of a result mostly pairs of no bytes: two zeros each, so an odd number of bytes is malformed.
    fn content(&mut self, kind: u8, n: usize) -> Vec<u8> {
        if kind == kind::GET_VALUES_RESULT && !self.random.one_in(4) {
            vec![0; n]
        } else {
            self.random.bytes(n)
        }
    }
}

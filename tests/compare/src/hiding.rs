//! From a journal another one with the same open records: what V does at 7 left out, put in or made another, and other values
//! where V writes.

use second::rng::Rng;
use second::secrecy::{acts, is_hidden};
use second::state::Mode;
use second::step::judge;
use second::{GuestId, State};

use crate::blind::Records;

/// The records and where they lead, of the first journal and of the other.
pub struct Hiding<'a> {
    pub v: GuestId,
    pub states: [State; 2],
    pub made: Records,
    pub rng: &'a mut Rng,
}

impl Hiding<'_> {
    /// Goes through the first journal; the other is made beside it.
    pub fn run(&mut self, base: &[[u8; 8]]) {
        // some have few changes, some many
        let share = self.rng.pick(&[4, 15, 40]).unwrap_or(15);
        for record in base {
            self.insert(share);
            self.take(*record, share);
        }
        self.insert(share);
    }

    /// Hidden records, where there can be any.
    fn insert(&mut self, share: usize) {
        while acts(self.v, &self.states[1]) && self.rng.percent(share) {
            let record = self.hidden();
            self.give(record);
        }
    }

    fn take(&mut self, record: [u8; 8], share: usize) {
        let v_writes = acts(self.v, &self.states[0]) && matches!(record[0], 3 | 4);
        let other = if is_hidden(self.v, &self.states[0], &record) {
            self.another(record)
        } else if v_writes && self.rng.percent(20 + share) {
            Some(self.with_value(record))
        } else {
            Some(record)
        };
        judge(&mut self.states[0], &record);
        other.into_iter().for_each(|other| self.give(other));
    }

    fn give(&mut self, record: [u8; 8]) {
        judge(&mut self.states[1], &record);
        self.made.push(record);
    }

    /// In place of a hidden record.
    fn another(&mut self, record: [u8; 8]) -> Option<[u8; 8]> {
        match self.rng.below(8) {
            0 | 1 => None,
            2 => Some(record),
            3 => Some(self.with_value(record)),
            4 => Some([1 + self.rng.below(4) as u8, 7, record[2], record[3], 0, 0, 0, 0]),
            _ => Some(self.hidden()),
        }
    }

    fn with_value(&mut self, mut record: [u8; 8]) -> [u8; 8] {
        match self.rng.below(4) {
            0 => record[4..].fill(0),
            1 => record[4 + self.rng.below(4)] ^= 1 << self.rng.below(8),
            _ => record[4..].fill_with(|| self.rng.byte()),
        }
        record
    }

    /// Mostly right, or in the wrong mode, or with bytes that are not used, or anything.
    fn hidden(&mut self) -> [u8; 8] {
        let waits = self.states[1].mode == Mode::Waiting;
        let writes = self.rng.percent(55);
        let kind = 1 + 2 * writes as u8 + waits as u8;
        let mut record = [kind, 7, 0, 0, 0, 0, 0, 0];
        if writes {
            record[4..].fill_with(|| self.rng.byte());
        }
        match self.rng.below(10) {
            0 => record[0] = 1 + ((kind - 1) ^ 1),
            1 => record[2] = 1 + self.rng.below(255) as u8,
            2 => record[3] = 1 + self.rng.below(255) as u8,
            3 => record[0] = 1 + self.rng.below(4) as u8,
            4 => record[2..].fill_with(|| self.rng.byte()),
            5 => record[4 + self.rng.below(4)] = self.rng.byte(),
            _ => {}
        }
        record
    }
}

//! A machine that the generators drive, with the records given to it so far.

use crate::checks::{refusal, refusal_when_called};
use crate::gen::near;
use crate::numbers::{GuestId, Mach, Phys, Virt};
use crate::record::{decode, encode, Action, Call};
use crate::rng::Rng;
use crate::state::{fresh_with, Mode, Policy, State};
use crate::step::apply;

/// So many turns in a row without a record, and the machine is held to accept no more.
const PATIENCE: usize = 1000;

pub struct Driver {
    pub state: State,
    pub rng: Rng,
    pub records: Vec<[u8; 8]>,
    pub limit: usize,
    /// How many of a hundred accepted records have near misses before them.
    pub misses: usize,
    /// How often each number was given.
    pub given: [usize; 13],
    /// Turns since the last record, and how many records there were then.
    idle: (usize, usize),
}

impl Driver {
    pub fn new(seed: u64, limit: usize) -> Driver {
        Driver::started(Policy::WriteBack, seed, limit)
    }

    /// On the fresh machine of a policy.
    pub fn started(policy: Policy, seed: u64, limit: usize) -> Driver {
        Driver {
            state: fresh_with(policy),
            rng: Rng::new(seed),
            records: Vec::new(),
            limit,
            misses: 0,
            given: [0; 13],
            idle: (0, 0),
        }
    }

    pub fn is_full(&self) -> bool {
        self.records.len() >= self.limit
    }

    /// Whether there is another turn. Where turns give no more records, silent is given,
    /// accepted or not, so that a run ends whatever its machine refuses.
    pub fn goes_on(&mut self) -> bool {
        let (turns, records) = self.idle;
        let turns = if records == self.records.len() { turns + 1 } else { 0 };
        if turns > PATIENCE {
            self.give(encode(Action::Silent));
        }
        self.idle = (turns, self.records.len());
        !self.is_full()
    }

    /// The answer that a record would get.
    pub fn answer(&self, record: &[u8; 8]) -> u8 {
        match decode(record) {
            None => 2,
            Some(action) => refusal(&self.state, action).unwrap_or(0),
        }
    }

    /// Gives the machine a record, whatever the answer; nothing once full.
    pub fn give(&mut self, record: [u8; 8]) -> u8 {
        let number = self.answer(&record);
        if !self.is_full() {
            if let (0, Some(action)) = (number, decode(&record)) {
                apply(&mut self.state, action);
            }
            self.given[number as usize] += 1;
            self.records.push(record);
        }
        number
    }

    /// Gives an action only if it is accepted, perhaps after near misses of it.
    pub fn accept(&mut self, action: Action) -> bool {
        if self.answer(&encode(action)) != 0 {
            return false;
        }
        if self.misses > 0 && self.rng.percent(self.misses) {
            near::misses_of(self, encode(action));
        }
        self.give(encode(action)) == 0
    }

    pub fn guest(&self) -> GuestId {
        GuestId::new(self.state.active).expect("a valid state")
    }

    pub fn table(&self) -> Mach {
        self.state.table_in_force().expect("a valid state")
    }

    pub fn is_running(&self) -> bool {
        self.state.mode == Mode::Running
    }

    pub fn has_call(&self, guest: GuestId) -> bool {
        self.state.guest(guest).pending.is_stored()
    }

    /// The addresses that the table in force maps.
    pub fn mapped(&self) -> Vec<Virt> {
        Virt::all().filter(|va| self.state.maps(self.table(), *va).is_some()).collect()
    }

    /// The active guest's physical addresses with a property.
    pub fn physical(&self, wanted: impl Fn(Option<Mach>) -> bool) -> Vec<Phys> {
        let guest = self.guest();
        Phys::all().filter(|pa| wanted(self.state.registered(guest, *pa))).collect()
    }

    /// The other guests that control can be given to.
    pub fn free_guests(&self) -> Vec<GuestId> {
        GuestId::all().filter(|g| *g != self.guest() && !self.has_call(*g)).collect()
    }

    /// The other guests that were left with a call.
    pub fn left_behind(&self) -> Vec<GuestId> {
        GuestId::all().filter(|g| *g != self.guest() && self.has_call(*g)).collect()
    }

    /// What serving the call would be answered, were it pending.
    pub fn would_serve(&self, call: Call) -> u8 {
        refusal_when_called(&self.state, call.action()).unwrap_or(0)
    }

    pub fn run_guest(&mut self) -> bool {
        self.is_running() || self.accept(Action::Chmod)
    }

    pub fn stop_guest(&mut self) -> bool {
        if !self.is_running() {
            return true;
        }
        let action = if self.rng.percent(25) { Action::Hcall(None) } else { Action::RetCtrl };
        self.accept(action)
    }
}

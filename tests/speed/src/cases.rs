//! What is run: a start from the fresh machine, and a journal that is timed there.

use std::ops::Range;

use ration::{journal, Action, Call, Guest, Host, Pa, PinKind, Va};

use crate::engine::sizes::{GUESTS, PHYSICALS, RECORD_LIMIT};

pub struct Case {
    pub what: &'static str,
    /// Makes the start.
    pub before: Vec<u8>,
    /// Leads back to the start, so that each run is as the one before it.
    pub timed: Vec<u8>,
}

/// The records of a timed journal: as many as one may have.
pub const RECORDS: usize = RECORD_LIMIT;

/// The guest whose records are timed, after the others.
const LAST: Guest = Guest(GUESTS as u8 - 1);

/// A guest's physical addresses but that of its first table.
const PLACES: Range<u8> = 1..PHYSICALS as u8;

/// The one at which the last guest's page is pinned and unpinned, and where that page is written and read.
const PLACE: Pa = Pa(PLACES.end - 1);
const ADDRESS: Va = Va(0);

/// Each write changes the value.
const WRITES_AND_READS: [Action; 4] = [
    Action::Write(ADDRESS, 1),
    Action::Read(ADDRESS),
    Action::Write(ADDRESS, 2),
    Action::Read(ADDRESS),
];

pub fn all() -> Vec<Case> {
    let free = Host::fresh().free_pages() as usize;
    let case = |what, before: Vec<Action>, timed: Vec<Action>| Case {
        what,
        before: journal(&before),
        timed: journal(&timed),
    };
    vec![
        case("pin and unpin, the low pages free", taken(0), pins_and_unpins()),
        case(
            "pin and unpin, the low pages taken: the last alone is free",
            taken(free - 1),
            pins_and_unpins(),
        ),
        case("pin, every page taken: refused with 11", taken(free), refused_pins()),
        case(
            "write and read, the page in the cache",
            written(),
            WRITES_AND_READS.repeat(RECORDS / WRITES_AND_READS.len()),
        ),
    ]
}

/// So many pages are taken, the lowest ones, guest after guest; then the last guest runs.
fn taken(pages: usize) -> Vec<Action> {
    let mut left = pages;
    let mut actions = Vec::new();
    for guest in 0..=LAST.0 {
        actions.extend([Action::RetCtrl, Action::Switch(Guest(guest)), Action::Chmod]);
        for pa in PLACES.take(left) {
            actions.extend(pin(Pa(pa)));
            left -= 1;
        }
    }
    actions
}

/// The last guest runs, and has written a page.
fn written() -> Vec<Action> {
    let call = Call::New(ADDRESS, PLACE);
    let map = [Action::Hcall(call), Action::New(ADDRESS, PLACE), Action::Chmod];
    [taken(0), pin(PLACE).into(), map.into(), WRITES_AND_READS.into()].concat()
}

fn pin(pa: Pa) -> [Action; 3] {
    let kind = PinKind::Data;
    [Action::Hcall(Call::Pin(pa, kind)), Action::Pin(pa, kind), Action::Chmod]
}

fn unpin(pa: Pa) -> [Action; 3] {
    [Action::Hcall(Call::Unpin(pa)), Action::Unpin(pa), Action::Chmod]
}

/// As many as there is room for, then silent records.
fn pins_and_unpins() -> Vec<Action> {
    let turn = [pin(PLACE), unpin(PLACE)].concat();
    let mut actions = turn.repeat(RECORDS / turn.len());
    actions.resize(RECORDS, Action::Silent);
    actions
}

/// One call that is tried again and again, and dropped at the end.
fn refused_pins() -> Vec<Action> {
    let [call, try_it, run_on] = pin(PLACE);
    let mut actions = vec![call];
    actions.resize(RECORDS - 2, try_it);
    actions.extend([Action::Drop(LAST), run_on]);
    actions
}

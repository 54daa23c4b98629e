//! Secrecy (docs/HOST.md): what is hidden of one guest, V, what is told, and what is seen of a run.

use crate::journal::HEADER;
use crate::numbers::{GuestId, STEALTH};
use crate::state::{Owner, Page, Slot, State};
use crate::step::step;

/// Whether V is active.
pub fn acts(v: GuestId, state: &State) -> bool {
    state.active == v.byte()
}

/// V reads or writes at 7, whether it is refused or not.
pub fn is_hidden(v: GuestId, state: &State, record: &[u8]) -> bool {
    told(v, state, record).is_none()
}

/// What is told of a record; None of a hidden one.
pub fn told(v: GuestId, state: &State, record: &[u8]) -> Option<Vec<u8>> {
    told_form(acts(v, state), record)
}

/// The same, by whether V is active.
pub fn told_form(v_acts: bool, record: &[u8]) -> Option<Vec<u8>> {
    let at_stealth = matches!(record, [1..=4, address, ..] if *address == STEALTH.byte());
    if v_acts && at_stealth {
        return None;
    }
    let mut told = record.to_vec();
    if v_acts && matches!(record, [3 | 4, ..]) {
        told.iter_mut().skip(4).take(4).for_each(|byte| *byte = 0);
    }
    Some(told)
}

/// Slot 7 is emptied, and V's values are 0.
pub fn hide(v: GuestId, state: &State) -> State {
    let mut hidden = state.clone();
    hidden.tlb[STEALTH.home()] = Slot::EMPTY;
    let owns = |page: &Page| page.owner == Owner::Guest(v);
    for line in hidden.cache.iter_mut().flat_map(|set| set.ways.iter_mut()) {
        if line.page.page().is_some_and(|page| owns(state.page(page))) {
            line.value = 0;
        }
    }
    for page in hidden.pages.iter_mut().filter(|page| owns(page)) {
        page.memory = 0;
    }
    hidden
}

/// The same of a state's bytes.
pub fn hide_bytes(v: GuestId, machine: &[u8]) -> Vec<u8> {
    hide(v, &State::from_bytes(machine)).to_bytes()
}

/// A record of a run that is not hidden, as it is.
#[derive(Clone, PartialEq, Debug)]
pub struct Told {
    /// Its place among all records of the run.
    pub at: usize,
    pub told: Vec<u8>,
    pub number: u8,
    pub value: u32,
    pub before: State,
    pub after: State,
}

/// What is seen of a record that is not hidden.
#[derive(Clone, PartialEq, Debug)]
pub struct Seen {
    pub number: u8,
    /// 0 if V was active.
    pub value: u32,
    /// With V hidden.
    pub before: State,
    pub after: State,
}

/// The records of a run that are not hidden, each on the state that the run then has; the state becomes the one that it leads to.
pub fn walk<'a>(
    v: GuestId,
    state: &mut State,
    records: impl IntoIterator<Item = &'a [u8]>,
) -> Vec<Told> {
    let mut walked = Vec::new();
    for (at, record) in records.into_iter().enumerate() {
        let told = told(v, state, record);
        let before = told.is_some().then(|| state.clone());
        let (number, value) = step(state, record);
        if let Some((told, before)) = told.zip(before) {
            walked.push(Told { at, told, number, value, before, after: state.clone() });
        }
    }
    walked
}

impl Told {
    pub fn seen(&self, v: GuestId) -> Seen {
        let value = if acts(v, &self.before) { 0 } else { self.value };
        let (before, after) = (hide(v, &self.before), hide(v, &self.after));
        Seen { number: self.number, value, before, after }
    }
}

/// The open records of a run.
pub fn open(walked: &[Told]) -> Vec<&[u8]> {
    walked.iter().map(|record| &record.told[..]).collect()
}

/// What is seen of a run.
pub fn seen(v: GuestId, walked: &[Told]) -> Vec<Seen> {
    walked.iter().map(|record| record.seen(v)).collect()
}

/// The whole records of a journal that may be run.
pub fn records(journal: &[u8]) -> impl Iterator<Item = &[u8]> {
    journal[HEADER.len().min(journal.len())..].chunks_exact(8)
}

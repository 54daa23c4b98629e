//! Machines that leak what V keeps: each stands in the place of ours, and must be seen by twins alone.

use second::state::{Kind, Line, Mode, Pending, Slot, State};
use second::step::judge;
use second::{decode, Action, Mach, Virt, STEALTH};

use crate::task::{On, Task, VERDICT};
use crate::twin_places::items;
use crate::twin_runs::compared;
use crate::twin_tally::TwinTally;
use crate::twins::{self, Twins};

type Machine = fn(&mut State, &[u8]) -> (u8, u32);

const SEVEN: usize = 7;

/// The machine as it is, with the state before and what was done.
fn done(state: &mut State, record: &[u8]) -> ((u8, u32), State, Option<Action>) {
    let before = state.clone();
    let answer = judge(state, record);
    let action = decode(record).filter(|_| answer.0 == 0);
    (answer, before, action)
}

fn at_seven(action: Option<Action>) -> bool {
    matches!(action, Some(Action::Read { va, .. } | Action::Write { va, .. }) if va == STEALTH)
}

fn turns(action: Option<Action>) -> bool {
    matches!(action, Some(Action::Switch { .. } | Action::Lswitch { .. }))
}

/// unpin leaves the value in memory.
fn unpin_leaves(state: &mut State, record: &[u8]) -> (u8, u32) {
    let (answer, before, _) = done(state, record);
    let freed = state.free & !before.free;
    for page in Mach::all().filter(|page| freed & page.bit() != 0) {
        state.page_mut(page).memory = before.page(page).memory;
    }
    answer
}

/// The same, and pin does not clear it.
fn pin_restores(state: &mut State, record: &[u8]) -> (u8, u32) {
    let (answer, before, _) = done(state, record);
    for page in Mach::all() {
        let old = before.page(page);
        if state.free & !before.free & page.bit() != 0 {
            state.page_mut(page).memory = old.memory;
        }
        if before.free & !state.free & page.bit() != 0 && state.page(page).is_data() {
            state.page_mut(page).memory = old.memory;
        }
    }
    answer
}

/// The next guest's line of 7 enters with the value of the one that is taken out.
fn switch_carries(state: &mut State, record: &[u8]) -> (u8, u32) {
    let (answer, before, action) = done(state, record);
    let way = &mut state.cache[SEVEN].ways[0];
    if turns(action) && !way.page.is_empty() {
        way.value |= before.cache[SEVEN].ways[0].value;
    }
    answer
}

/// The way with the lower value is used on a miss, whatever the history says.
fn evicts_by_value(state: &mut State, record: &[u8]) -> (u8, u32) {
    let would = judge(&mut state.clone(), record).0;
    if let (0, Some(Action::Read { va, .. } | Action::Write { va, .. })) = (would, decode(record)) {
        let page = state.table_in_force().and_then(|table| state.maps(table, va));
        let cached = page.is_some_and(|page| state.page(page).is_cacheable());
        let set = &mut state.cache[va.home()];
        let full = set.ways.iter().all(|line| !line.page.is_empty());
        let hit = set.ways.iter().any(|line| line.key() == page.map(|page| (va, page)));
        if cached && full && !hit {
            set.history = (set.ways[0].value > set.ways[1].value) as u8;
        }
    }
    judge(state, record)
}

/// A line of the address counts, whatever its page.
fn keyed_by_address(state: &mut State, record: &[u8]) -> (u8, u32) {
    let (answer, before, action) = done(state, record);
    let Some(Action::Read { va, .. } | Action::Write { va, .. }) = action else { return answer };
    let mapped = before.table_in_force().and_then(|table| before.maps(table, va));
    let ways = before.cache[va.home()].ways.iter();
    let same = |line: &&Line| line.address == va.byte() && !line.page.is_empty();
    let held: Vec<&Line> = ways.filter(same).collect();
    match (held.first(), action) {
        (Some(line), Some(Action::Read { .. })) if line.page.page() != mapped => (0, line.value),
        _ => answer,
    }
}

/// The history of set 7 moves with each access at 7.
fn history_moves(state: &mut State, record: &[u8]) -> (u8, u32) {
    let (answer, _, action) = done(state, record);
    state.cache[SEVEN].history ^= at_seven(action) as u8;
    answer
}

/// A refused access at 7 gives the host control.
fn refusal_stops(state: &mut State, record: &[u8]) -> (u8, u32) {
    let answer = judge(state, record);
    if answer.0 != 0 && matches!(record, [1..=4, 7, ..]) {
        state.mode = Mode::Waiting;
    }
    answer
}

/// switch leaves slot 7, and what it holds is read where the table in force maps nothing.
fn stale_slot(state: &mut State, record: &[u8]) -> (u8, u32) {
    let (answer, before, action) = done(state, record);
    if turns(action) {
        state.tlb[SEVEN] = before.tlb[SEVEN];
    }
    let slot = before.tlb[SEVEN].page.page();
    match (answer.0, slot, decode(record)) {
        (6, Some(page), Some(Action::Read { va, .. })) if va == STEALTH => {
            (0, before.page(page).memory)
        }
        _ => answer,
    }
}

/// The line of 7 enters only when it is read or written.
fn lazy_line(state: &mut State, record: &[u8]) -> (u8, u32) {
    let (answer, _, action) = done(state, record);
    if turns(action) {
        state.cache[SEVEN].ways[0] = Line::EMPTY;
    }
    state.cache[SEVEN].history = 0;
    answer
}

/// Which free page is taken depends on the lines' values.
fn pin_looks(state: &mut State, record: &[u8]) -> (u8, u32) {
    let odd = state.lines().any(|line| line.value % 2 == 1);
    let hidden = if odd { state.free & state.free.wrapping_neg() } else { 0 };
    let pins = matches!(decode(record), Some(Action::Pin { .. }));
    if pins && state.free != hidden {
        state.free &= !hidden;
        let answer = judge(state, record);
        state.free |= hidden;
        return answer;
    }
    judge(state, record)
}

/// A refused read answers with what a line of its set has.
fn refusal_tells(state: &mut State, record: &[u8]) -> (u8, u32) {
    let answer = judge(state, record);
    match (answer.0, decode(record)) {
        (6, Some(Action::Read { va, .. })) => (6, state.cache[va.home()].ways[0].value),
        _ => answer,
    }
}

/// A large value at 7 costs the page its mark.
fn mark_by_value(state: &mut State, record: &[u8]) -> (u8, u32) {
    let (answer, _, action) = done(state, record);
    let line = state.cache[SEVEN].ways[0];
    if let (true, Some(page)) = (at_seven(action) && line.value >> 31 == 1, line.page.page()) {
        state.page_mut(page).mark = 0;
    }
    answer
}

/// A line that is taken out is written to the page behind its own too, where that is data.
fn writes_beyond(state: &mut State, record: &[u8]) -> (u8, u32) {
    let (answer, before, action) = done(state, record);
    let line = before.cache[SEVEN].ways[0];
    if let (true, Some(page)) = (turns(action), line.page.page()) {
        let next = Mach::new(page.byte() + 1).filter(|next| state.page(*next).kind == Kind::Data);
        next.into_iter().for_each(|next| state.page_mut(next).memory = line.value);
    }
    answer
}

/// An access of the host at 7 clears the call.
fn clears_call(state: &mut State, record: &[u8]) -> (u8, u32) {
    let (answer, _, action) = done(state, record);
    if at_seven(action) {
        state.guests[state.active as usize].pending = Pending::NONE;
    }
    answer
}

/// The slot beside 7 is filled too.
fn two_slots(state: &mut State, record: &[u8]) -> (u8, u32) {
    let (answer, _, action) = done(state, record);
    let line = state.cache[SEVEN].ways[0];
    if let (true, Some(page), Some(va)) = (at_seven(action), line.page.page(), Virt::new(6)) {
        state.tlb[SEVEN - 1] = Slot::new(va, page);
    }
    answer
}

/// del leaves a line of 7 that memory has not.
fn del_leaves(state: &mut State, record: &[u8]) -> (u8, u32) {
    let (answer, before, action) = done(state, record);
    let line = before.cache[SEVEN].ways[0];
    let deleted = matches!(action, Some(Action::Del { va }) if va == STEALTH);
    if deleted && !before.memory_has(&line) {
        state.cache[SEVEN].ways[0] = line;
    }
    answer
}

/// A page that V has written is not pinned again.
fn keeps_back(state: &mut State, record: &[u8]) -> (u8, u32) {
    let (answer, before, _) = done(state, record);
    let freed = state.free & !before.free;
    let written = Mach::all().filter(|page| before.page(*page).memory != 0);
    state.free &= !(freed & written.fold(0, |all, page| all | page.bit()));
    answer
}

/// A write of another guest that misses finds V's value, and not its own, in its place.
fn mixes_values(state: &mut State, record: &[u8]) -> (u8, u32) {
    let (answer, before, action) = done(state, record);
    let Some(Action::Write { va, .. }) = action else { return answer };
    let (old, new) = (before.cache[va.home()].ways, &mut state.cache[va.home()].ways);
    for (old, new) in old.iter().zip(new) {
        if old.key() != new.key() {
            new.value ^= old.value;
        }
    }
    answer
}

const LEAKS: [(&str, Machine); 18] = [
    ("unpin leaves the value", unpin_leaves),
    ("pin finds the value again", pin_restores),
    ("switch carries the value over", switch_carries),
    ("the lower value is taken out", evicts_by_value),
    ("a line is known by its address alone", keyed_by_address),
    ("the history of set 7 moves", history_moves),
    ("a refusal at 7 gives the host control", refusal_stops),
    ("slot 7 is left and used", stale_slot),
    ("the line of 7 enters when it is used", lazy_line),
    ("pin looks at values", pin_looks),
    ("a refused read tells a value", refusal_tells),
    ("a large value costs the mark", mark_by_value),
    ("a line is written to the next page", writes_beyond),
    ("an access at 7 clears the call", clears_call),
    ("an access at 7 fills slot 6", two_slots),
    ("del leaves a line that memory has not", del_leaves),
    ("a written page is not free again", keeps_back),
    ("a line that enters has what was taken out", mixes_values),
];

/// What a machine makes of a journal, as far as twins look at it.
fn result(machine: Machine, task: &Task) -> Vec<u8> {
    let Task::Run { on, journal, .. } = task else { return Vec::new() };
    let mut state = On::state(on);
    let mut out = vec![0; VERDICT];
    for record in second::secrecy::records(journal) {
        let (number, value) = machine(&mut state, record);
        out.extend([number, 0, 0, 0]);
        out.extend(value.to_le_bytes());
    }
    out.extend(state.to_bytes());
    out
}

fn wrong(machine: Machine, twins: &Twins) -> Option<String> {
    let ends = [0, 1].map(|i| twins.journals[i].len());
    let results = items(twins, ends).map(|item| result(machine, &item.task));
    compared(twins, ends, results, &mut TwinTally::default()).err()
}

/// How many there were, each seen; the machine as it is leaks nothing.
pub fn each() -> Result<usize, String> {
    let all = twins::all();
    if let Some(what) = all.iter().find_map(|twins| wrong(judge, twins)) {
        return Err(format!("the machine as it is leaks: {what}"));
    }
    for (name, machine) in LEAKS {
        if all.iter().all(|twins| wrong(machine, twins).is_none()) {
            return Err(format!("a leak was not seen: {name}"));
        }
    }
    Ok(LEAKS.len())
}

#[cfg(test)]
mod tests {
    #[test]
    fn leaks_are_seen() {
        assert_eq!(super::each().err(), None);
    }
}

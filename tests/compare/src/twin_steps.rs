//! What happened in a told record of twins while V's values differ, seen in the second program's states.

use second::secrecy::Told;
use second::state::{Line, Owner};
use second::{decode, Action, GuestId, Mach, State, STEALTH};

use crate::twin_met::{Met, STEPS};

pub struct Steps {
    v: GuestId,
    /// Pages that V unpinned with other values, and those of them that another guest has now.
    given: u64,
    passed: u64,
}

/// A told record in both runs.
struct Step<'a> {
    v: GuestId,
    action: Action,
    one: &'a Told,
    other: &'a Told,
}

const SEVEN: usize = 7;

impl Steps {
    pub fn new(v: GuestId) -> Steps {
        Steps { v, given: 0, passed: 0 }
    }

    pub fn note(&mut self, one: &Told, other: &Told) -> Vec<Met> {
        let (0, Some(action)) = (one.number, decode(&one.told)) else { return Vec::new() };
        let step = Step { v: self.v, action, one, other };
        let mut happened = step.happened();
        self.pages(&step, &mut happened);
        let mut met: Vec<Met> = (0..STEPS.len()).filter(|i| happened[*i]).map(Met::Step).collect();
        met.extend(step.written().map(Met::Change));
        met.extend(step.evicted().map(|set| Met::Evicted(set, step.v_acts())));
        met
    }

    /// What becomes of pages that V gave back.
    fn pages(&mut self, step: &Step, happened: &mut [bool; STEPS.len()]) {
        let [before, after] = [&step.one.before, &step.one.after];
        let (freed, taken) = (after.free & !before.free, before.free & !after.free);
        let other = |page: &Mach| step.memory_differs(*page);
        if step.v_acts() && Mach::all().any(|page| freed & page.bit() != 0 && other(&page)) {
            happened[16] = true;
            self.given |= freed;
        }
        if self.given & taken != 0 {
            happened[if step.v_acts() { 18 } else { 17 }] = true;
            self.passed |= if step.v_acts() { 0 } else { taken };
            self.given &= !taken;
        }
        self.passed &= !freed;
        let reads = matches!(step.action, Action::Read { .. }) && !step.v_acts();
        let read = step.entry().filter(|_| reads);
        happened[19] = read.is_some_and(|page| self.passed & page.bit() != 0);
    }
}

impl Step<'_> {
    fn v_acts(&self) -> bool {
        self.one.before.active == self.v.byte()
    }

    fn memory_differs(&self, page: Mach) -> bool {
        self.one.before.page(page).memory != self.other.before.page(page).memory
    }

    /// The page at the action's address.
    fn entry(&self) -> Option<Mach> {
        let va = match self.action {
            Action::Read { va, .. } | Action::Write { va, .. } => va,
            Action::New { va, .. } | Action::Del { va } => va,
            _ => STEALTH,
        };
        self.one.before.maps(self.one.before.table_in_force()?, va)
    }

    /// Lines with other values that are there before and gone after, by set.
    fn gone(&self) -> impl Iterator<Item = (usize, Mach)> + '_ {
        let [before, other, after] = [&self.one.before, &self.other.before, &self.one.after];
        let ways = (0..8).flat_map(|set| [0, 1].map(|way| (set, way)));
        ways.filter_map(move |(set, way)| {
            let line = |state: &State| -> Line { state.cache[set].ways[way] };
            let is_other = line(before).value != line(other).value;
            let is_gone = line(before).key() != line(after).key();
            (is_other && is_gone).then_some((set, line(before).page.page()?))
        })
    }

    /// The set that an access took a line of V's out of.
    fn evicted(&self) -> Option<usize> {
        let access = matches!(self.action, Action::Read { .. } | Action::Write { .. });
        self.gone().filter(|_| access).map(|(set, _)| set).next()
    }

    /// A write that differs, to a line or to memory alone.
    fn written(&self) -> Option<usize> {
        let writes = matches!(self.action, Action::Write { .. }) && self.v_acts();
        let page = self.entry().filter(|_| writes)?;
        let value = |told: &Told| match told.after.page(page).is_cacheable() {
            true => told.after.lines().find(|line| line.page.page() == Some(page)).map(|l| l.value),
            false => Some(told.after.page(page).memory),
        };
        let is_cached = self.one.before.page(page).is_cacheable();
        (value(self.one) != value(self.other)).then_some(if is_cached { 6 } else { 7 })
    }

    fn happened(&self) -> [bool; STEPS.len()] {
        let mut happened = [false; STEPS.len()];
        let all = [&self.turned()[..], &self.mapped(), &self.accessed()].concat();
        happened[..all.len()].copy_from_slice(&all);
        happened
    }

    /// The line of 7 before the record and after it.
    fn stealth_lines(&self) -> [Line; 2] {
        [&self.one.before, &self.one.after].map(|state| state.cache[SEVEN].ways[0])
    }

    /// Whether the line of 7 is another in the other run, before the record and after it.
    fn stealth_differs(&self) -> [bool; 2] {
        let others = [&self.other.before, &self.other.after].map(|s| s.cache[SEVEN].ways[0]);
        let [saved, loaded] = self.stealth_lines();
        [saved.value != others[0].value, loaded.value != others[1].value]
    }

    fn turned(&self) -> [bool; 8] {
        let (own, to_v) = (self.v_acts(), self.one.after.active == self.v.byte());
        let ([saved, loaded], [from, to]) = (self.stealth_differs(), self.stealth_lines());
        let owner = to.page.page().map(|page| self.one.before.page(page).owner);
        let others = owner.is_some_and(|owner| owner != Owner::Guest(self.v));
        let moved = from.page != to.page && !to.page.is_empty();
        let switch = matches!(self.action, Action::Switch { .. });
        let lswitch = matches!(self.action, Action::Lswitch { .. }) && own;
        [
            switch && own && !to_v && saved,
            switch && to_v && loaded,
            switch && own && to_v && saved,
            switch && own && saved && others,
            lswitch && saved,
            lswitch && loaded,
            lswitch && saved && moved,
            matches!(self.action, Action::NewSm { .. }) && own && loaded,
        ]
    }

    fn mapped(&self) -> [bool; 5] {
        let own = self.v_acts();
        let (new, del) = match self.action {
            Action::New { .. } => (own, false),
            Action::Del { .. } => (false, own),
            _ => (false, false),
        };
        let at_stealth = del && self.entry() == self.stealth_lines()[0].page.page();
        let slots = self.one.before.tlb[SEVEN] != self.other.before.tlb[SEVEN];
        let gone = self.gone().next().is_some();
        let marks = |state: &State| state.pages.iter().filter(|page| page.mark == 0).count();
        [
            at_stealth && gone,
            at_stealth && slots,
            del && !at_stealth && gone,
            new && gone && self.entry().is_some(),
            new && gone && marks(&self.one.after) > marks(&self.one.before),
        ]
    }

    fn accessed(&self) -> [bool; 3] {
        let read = matches!(self.action, Action::Read { .. });
        let write = matches!(self.action, Action::Write { .. });
        let (own, differ) = (self.v_acts(), values_differ(self.v, self.one, self.other));
        [
            read && own && self.one.value != self.other.value,
            read && !own && differ && self.one.value != 0,
            write && !own && differ,
        ]
    }
}

/// Whether V's values differ before the record.
fn values_differ(v: GuestId, one: &Told, other: &Told) -> bool {
    let memory = one.before.pages.iter().zip(&other.before.pages);
    let lines = one.before.lines().zip(other.before.lines());
    let owned = memory.filter(|(page, _)| page.owner == Owner::Guest(v));
    owned.into_iter().any(|(page, other)| page.memory != other.memory)
        || lines.into_iter().any(|(line, other)| line.value != other.value)
}

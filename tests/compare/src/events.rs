//! What happened inside the runs, seen in the second program's states: runs that
//! meet no write-back compare little.

use second::gen::calls::{self, Calls};
use second::state::{Line, Owner};
use second::step::judge;
use second::{decode, fresh, fresh_with, step, Action, GuestId, Mach, Policy, State, Virt};
use second::{HEADER, STEALTH};

use crate::journals::Journal;

const NAMES: [&str; 17] = [
    "dirty line taken out by a read or write",
    "dirty line taken out by new",
    "dirty line taken out by del",
    "dirty stealth line saved by switch",
    "dirty stealth line saved by lswitch",
    "dirty stealth line saved and loaded again",
    "stealth line loaded by new_sm, value not 0",
    "page shared and its mark lost",
    "page shared with a dirty line",
    "read or write of a page not cacheable",
    "two lines of one address in a set",
    "TLB entry dropped by new or del",
    "new in place of another entry",
    "del done, the address without a TLB entry",
    "a table other than the first in force",
    "last free page taken",
    "page with a value given back",
];

/// The same journals under write-through, where no line is dirty.
const THROUGH: [&str; 16] = [
    "write-through: write hit",
    "write-through: write miss, a way empty",
    "write-through: write miss, a line taken out",
    "write-through: write hit that changes memory",
    "write-through: write miss that changes memory",
    "write-through: write to the stealth page",
    "write-through: write to a page not cacheable",
    "write-through: write_hyper to a line",
    "write-through: write_hyper to a page not cacheable",
    "write-through: read miss, a line taken out",
    "write-through: page shared, a line of it taken out",
    "write-through: line taken out by del",
    "write-through: page with a value given back by unpin",
    "write-through: stealth line saved by switch or lswitch",
    "write-through: stealth line loaded by switch or lswitch, value not 0",
    "write-through: stealth line loaded by new_sm, value not 0",
];

/// What else there was at the address of a del that the table in force does not map.
const UNMAPPED: [&str; 4] = [
    "del refused with 6, another table of the guest maps the address",
    "del refused with 6, tables of other guests alone map the address",
    "del refused with 6 at the stealth address",
    "del refused with 6, a line of the address in the cache",
];

#[derive(Default)]
pub struct Events {
    steps: [usize; NAMES.len()],
    through: [usize; THROUGH.len()],
    unmapped: [usize; UNMAPPED.len()],
    calls: [usize; calls::NAMES.len()],
}

struct Passage<'a> {
    action: Action,
    before: &'a State,
    after: &'a State,
}

impl Events {
    /// Everything happened once.
    pub fn full() -> Events {
        Events {
            steps: [1; NAMES.len()],
            through: [1; THROUGH.len()],
            unmapped: [1; UNMAPPED.len()],
            calls: [1; calls::NAMES.len()],
        }
    }

    /// The counts, of which none may be 0.
    pub fn needed(&mut self) -> Vec<&mut usize> {
        let counts = self.steps.iter_mut().chain(&mut self.through).chain(&mut self.unmapped);
        counts.chain(&mut self.calls).collect()
    }

    pub fn watch(&mut self, journals: &[Journal]) {
        let runs = ["deep", "near", "crowd", "blind", "fill", "declined"];
        for journal in journals.iter().filter(|j| runs.contains(&j.profile)) {
            let (mut state, mut calls) = (fresh(), Calls::default());
            for record in journal.bytes[HEADER.len()..].chunks_exact(8) {
                let before = state.clone();
                let number = step(&mut state, record).0;
                add(&mut self.calls, &calls.note(record, number, &before));
                match (number, decode(record)) {
                    (0, Some(action)) => {
                        let passage = Passage { action, before: &before, after: &state };
                        add(&mut self.steps, &passage.happened());
                    }
                    (6, Some(Action::Del { va })) => add(&mut self.unmapped, &unmapped(&state, va)),
                    _ => {}
                }
            }
            self.watch_through(journal);
        }
    }

    fn watch_through(&mut self, journal: &Journal) {
        let mut state = fresh_with(Policy::WriteThrough);
        for record in journal.bytes[HEADER.len()..].chunks_exact(8) {
            let before = state.clone();
            if let (0, Some(action)) = (judge(&mut state, record).0, decode(record)) {
                let passage = Passage { action, before: &before, after: &state };
                add(&mut self.through, &passage.through());
            }
        }
    }

    fn all(&self) -> impl Iterator<Item = (&str, usize)> + '_ {
        let names = NAMES.into_iter().chain(THROUGH).chain(UNMAPPED).chain(calls::NAMES);
        let counts = self.steps.into_iter().chain(self.through).chain(self.unmapped);
        names.zip(counts.chain(self.calls))
    }

    pub fn print(&self) {
        for (name, count) in self.all() {
            println!("{count:>8} {name}");
        }
    }

    pub fn missing(&self) -> Vec<String> {
        let none = self.all().filter(|(_, count)| *count == 0);
        none.map(|(name, _)| format!("never: {name}")).collect()
    }
}

fn add(counts: &mut [usize], happened: &[bool]) {
    for (count, happened) in counts.iter_mut().zip(happened) {
        *count += *happened as usize;
    }
}

fn unmapped(state: &State, va: Virt) -> [bool; UNMAPPED.len()] {
    let tables = state.pages.iter().filter(|page| !page.entries[va.index()].is_empty());
    let owners: Vec<Owner> = tables.map(|table| table.owner).collect();
    let own = GuestId::new(state.active).is_some_and(|g| owners.contains(&Owner::Guest(g)));
    let line = state.lines().any(|line| line.address == va.byte() && !line.page.is_empty());
    [own, !own && !owners.is_empty(), va == STEALTH, line]
}

impl Passage<'_> {
    fn happened(&self) -> [bool; NAMES.len()] {
        let a = self.action;
        let access = matches!(a, Action::Read { .. } | Action::Write { .. });
        let (new, del) = (matches!(a, Action::New { .. }), matches!(a, Action::Del { .. }));
        let (saved, written) = (self.written_back(Some(7)), self.written_back(None));
        let marks = |s: &State| s.pages.iter().filter(|page| page.mark == 0).count();
        let lost = new && marks(self.after) > marks(self.before);
        let entry = self.entry();
        [
            access && written,
            new && written,
            del && written,
            matches!(a, Action::Switch { .. }) && saved,
            matches!(a, Action::Lswitch { .. }) && saved,
            saved && self.before.cache[7].ways[0].page == self.after.cache[7].ways[0].page,
            matches!(a, Action::NewSm { .. }) && self.after.cache[7].ways[0].value != 0,
            lost,
            lost && written,
            access && entry.is_some_and(|page| self.before.page(page).mark == 0),
            self.same_address(),
            (new || del) && self.before.tlb != self.after.tlb,
            new && entry.is_some(),
            del && self.before.tlb == self.after.tlb,
            self.after.guests[self.after.active as usize].current != 0,
            self.before.free != 0 && self.after.free == 0,
            self.given_back(),
        ]
    }

    fn through(&self) -> [bool; THROUGH.len()] {
        let a = self.action;
        let (write, hyper) = match a {
            Action::Write { hyper, .. } => (true, hyper),
            _ => (false, false),
        };
        let cached = self.entry().is_some_and(|page| self.before.page(page).mark == 1);
        let (bare, line) = (write && !cached, write && cached);
        let hit = line && self.before.lines().any(|line| line.key() == self.key());
        let (miss, out) = (line && !hit, self.taken_out());
        let moved = self.memory_changed();
        let turned = matches!(a, Action::Switch { .. } | Action::Lswitch { .. });
        let [saved, loaded] = [self.before, self.after].map(|s| s.cache[STEALTH.home()].ways[0]);
        let marks = |s: &State| s.pages.iter().filter(|page| page.mark == 0).count();
        [
            hit,
            miss && !out,
            miss && out,
            hit && moved,
            miss && moved,
            line && self.key().is_some_and(|(va, _)| va == STEALTH),
            bare,
            line && hyper,
            bare && hyper,
            matches!(a, Action::Read { .. }) && out,
            out && marks(self.after) > marks(self.before),
            matches!(a, Action::Del { .. }) && out,
            self.given_back(),
            turned && !saved.page.is_empty(),
            turned && loaded.value != 0,
            matches!(a, Action::NewSm { .. }) && loaded.value != 0,
        ]
    }

    /// The key of the action's line.
    fn key(&self) -> Option<(Virt, Mach)> {
        match self.action {
            Action::Read { va, .. } | Action::Write { va, .. } => Some((va, self.entry()?)),
            _ => None,
        }
    }

    /// A line is gone, whatever came in its place.
    fn taken_out(&self) -> bool {
        let key = |line: &Line| (!line.page.is_empty()).then_some((line.address, line.page));
        let after: Vec<_> = self.after.lines().filter_map(key).collect();
        self.before.lines().filter_map(key).any(|line| !after.contains(&line))
    }

    fn memory_changed(&self) -> bool {
        let pages = self.before.pages.iter().zip(&self.after.pages);
        pages.into_iter().any(|(before, after)| before.memory != after.memory)
    }

    /// A line is gone whose value memory had not, and memory has it now.
    fn written_back(&self, of_set: Option<usize>) -> bool {
        (0..8).filter(|set| of_set.is_none_or(|only| only == *set)).any(|set| {
            let lines = self.before.cache[set].ways.iter();
            let dirty = lines.filter_map(|line| Some((line.page.page()?, line.value)));
            dirty.into_iter().any(|(page, value)| {
                self.before.page(page).memory != value && self.after.page(page).memory == value
            })
        })
    }

    /// The page at the action's address before it.
    fn entry(&self) -> Option<Mach> {
        let va = match self.action {
            Action::Read { va, .. } | Action::Write { va, .. } => va,
            Action::New { va, .. } | Action::Del { va } => va,
            _ => STEALTH,
        };
        self.before.maps(self.before.table_in_force()?, va)
    }

    fn same_address(&self) -> bool {
        self.after.cache.iter().any(|set| {
            let [one, other] = set.ways;
            !one.page.is_empty() && !other.page.is_empty() && one.address == other.address
        })
    }

    fn given_back(&self) -> bool {
        let freed = self.after.free & !self.before.free;
        Mach::all().any(|page| freed & page.bit() != 0 && self.before.page(page).memory != 0)
    }
}

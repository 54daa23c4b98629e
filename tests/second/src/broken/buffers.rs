//! Rules 7, 8, 9 and 11, and of rule 10 the empty places: what is tested at lines and TLB slots.

use crate::broken::Where;
use crate::numbers::{Mach, Place, Virt, STEALTH};
use crate::state::{Kind, Line, Page, Policy, State};

const SETS: usize = 8;
const SLOTS: usize = 8;

/// Set by set.
fn first_line(s: &State, fails: impl Fn(usize, usize, &Line) -> bool) -> Option<Where> {
    let all = (0..SETS).flat_map(|set| [(set, 0), (set, 1)]);
    let mut wrong = all.filter(|(set, way)| fails(*set, *way, &s.cache[*set].ways[*way]));
    wrong.next().map(|(set, way)| Where::Line(set, way))
}

/// Rule 7.
pub fn lines(s: &State) -> Option<Where> {
    first_line(s, |set, way, line| !line_is_right(s, set, way, line))
}

fn line_is_right(s: &State, set: usize, way: usize, line: &Line) -> bool {
    let number = match line.page {
        Place::Empty => return true,
        Place::Nowhere(_) => return false,
        Place::At(number) => number,
    };
    let Some(va) = Virt::new(line.address) else { return false };
    let page = s.page(number);
    let table = |t: &Page| t.kind == Kind::Table && t.entries[va.index()] == line.page;
    va.byte() as usize % SETS == set
        && page.kind == Kind::Data
        && page.mark == 1
        && s.pages.iter().any(table)
        && !stands_elsewhere(s, set, way, line)
}

/// The same key in another way, be it of a set that is not its own.
fn stands_elsewhere(s: &State, set: usize, way: usize, line: &Line) -> bool {
    let key = |line: &Line| (line.address, line.page);
    let others = (0..SETS).flat_map(|k| [(k, 0), (k, 1)]).filter(|at| *at != (set, way));
    others.into_iter().any(|(k, w)| key(&s.cache[k].ways[w]) == key(line))
}

/// The table in force; None where it is nowhere.
fn in_force(s: &State) -> Option<&Page> {
    let guest = s.guests.get(usize::from(s.active))?;
    match guest.physical.get(usize::from(guest.current))? {
        Place::At(number) => Some(s.page(*number)).filter(|page| page.kind == Kind::Table),
        _ => None,
    }
}

/// Rule 8.
pub fn slots(s: &State) -> Option<Where> {
    (0..SLOTS).find(|slot| !slot_is_right(s, *slot)).map(Where::Slot)
}

fn slot_is_right(s: &State, number: usize) -> bool {
    let slot = s.tlb[number];
    match (slot.page, Virt::new(slot.address), in_force(s)) {
        (Place::Empty, ..) => true,
        (Place::At(_), Some(va), Some(table)) => {
            va.index() % SLOTS == number && table.entries[va.index()] == slot.page
        }
        _ => false,
    }
}

/// Rule 9, part 0.
pub fn stealth_ways(s: &State) -> Option<Where> {
    let ways = &s.cache[STEALTH.home()].ways;
    let wrong = |way: &usize| match stealth_page(s) {
        Some(page) if *way == 0 => {
            ways[0].page != Place::At(page) || ways[0].address != STEALTH.byte()
        }
        _ => ways[*way].page != Place::Empty,
    };
    (0..ways.len()).find(wrong).map(Where::StealthWay)
}

/// The page to which the table in force maps 7.
fn stealth_page(s: &State) -> Option<Mach> {
    in_force(s)?.entries[STEALTH.index()].page()
}

/// Rule 9, part 1.
pub fn stealth_history(s: &State) -> Option<Where> {
    (s.cache[STEALTH.home()].history != 0).then_some(Where::StealthHistory)
}

/// Rule 10, part 21.
pub fn empty_ways(s: &State) -> Option<Where> {
    first_line(s, |_, _, line| line.page == Place::Empty && (line.address != 0 || line.value != 0))
}

/// Rule 10, part 22.
pub fn empty_slots(s: &State) -> Option<Where> {
    let wrong = |slot: &usize| s.tlb[*slot].page == Place::Empty && s.tlb[*slot].address != 0;
    (0..SLOTS).find(wrong).map(Where::Slot)
}

/// Rule 11.
pub fn values(s: &State) -> Option<Where> {
    let through = s.policy == Policy::WriteThrough;
    first_line(s, |_, _, line| match line.page {
        Place::At(page) => through && s.page(page).memory != line.value,
        _ => false,
    })
}

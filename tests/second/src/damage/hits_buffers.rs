//! What breaks rules 7, 8, 9 and 11, and of rule 10 the empty places, at a place: lines and TLB slots.

use crate::damage::hits::{any_page, past_pages};
use crate::damage::places::Target;
use crate::numbers::{Mach, Place, Virt, STEALTH};
use crate::rng::Rng;
use crate::state::{Line, Policy, Slot, State};

const WAYS: usize = 2;
const LINES: usize = 16;
const SLOTS: usize = 8;

fn line_mut(s: &mut State, number: usize) -> &mut Line {
    &mut s.cache[number / WAYS].ways[number % WAYS]
}

fn put(s: &mut State, target: Target, line: Line) -> Option<()> {
    *line_mut(s, target.place) = line;
    Some(())
}

/// An address, mostly of this set or slot.
fn any_address(home: usize, rng: &mut Rng) -> Option<Virt> {
    let any = rng.below(Virt::COUNT);
    Virt::new(if rng.percent(80) { home + any / 8 * 8 } else { any } as u8)
}

/// With the page's value, so that rule 11 is spared.
pub fn line_of_any(s: &mut State, target: Target, rng: &mut Rng) -> Option<()> {
    let (va, page) = (any_address(target.place / WAYS, rng)?, any_page(rng)?);
    put(s, target, Line::new(va, page, s.page(page).memory))
}

pub fn line_nowhere(s: &mut State, target: Target, rng: &mut Rng) -> Option<()> {
    let (va, page) = (any_address(target.place / WAYS, rng)?, any_page(rng)?);
    let mut line = Line::new(va, page, s.page(page).memory);
    match rng.percent(50) {
        true => line.address += 64,
        false => line.page = Place::from_byte(past_pages(rng)),
    }
    put(s, target, line)
}

/// The key of another line: both break the rule, and the first is named.
pub fn line_again(s: &mut State, target: Target, rng: &mut Rng) -> Option<()> {
    let others = (0..LINES).filter(|line| *line != target.place);
    let lines: Vec<Line> = others.map(|line| *line_mut(s, line)).collect();
    let held: Vec<Line> = lines.into_iter().filter(|line| !line.page.is_empty()).collect();
    put(s, target, rng.pick(&held)?)
}

pub fn slot_of_any(s: &mut State, target: Target, rng: &mut Rng) -> Option<()> {
    s.tlb[target.place] = Slot::new(any_address(target.place, rng)?, any_page(rng)?);
    Some(())
}

pub fn slot_nowhere(s: &mut State, target: Target, rng: &mut Rng) -> Option<()> {
    slot_of_any(s, target, rng)?;
    let slot = &mut s.tlb[target.place];
    match rng.percent(50) {
        true => slot.address += 64,
        false => slot.page = Place::from_byte(past_pages(rng)),
    }
    Some(())
}

pub fn slot_again(s: &mut State, target: Target, rng: &mut Rng) -> Option<()> {
    let others = (0..SLOTS).filter(|slot| *slot != target.place).map(|slot| s.tlb[slot]);
    let held: Vec<Slot> = others.filter(|slot| !slot.page.is_empty()).collect();
    s.tlb[target.place] = rng.pick(&held)?;
    Some(())
}

/// A line that the set should not have there, mostly of some stealth page.
pub fn stealth_way(s: &mut State, target: Target, rng: &mut Rng) -> Option<()> {
    let stealth = |page: &Mach| s.addresses_of(*page) & STEALTH.bit() != 0;
    let pages: Vec<Mach> = Mach::all().filter(stealth).collect();
    let page = rng.pick(&pages).or_else(|| any_page(rng))?;
    let value = s.page(page).memory;
    s.cache[STEALTH.home()].ways[target.place] = Line::new(STEALTH, page, value);
    Some(())
}

pub fn stealth_way_gone(s: &mut State, target: Target, _: &mut Rng) -> Option<()> {
    s.cache[STEALTH.home()].ways[target.place] = Line::EMPTY;
    Some(())
}

pub fn stealth_history(s: &mut State, _: Target, rng: &mut Rng) -> Option<()> {
    s.cache[STEALTH.home()].history = rng.pick(&[1, 1, 2, 255])?;
    Some(())
}

/// What is left of a line there, or of none.
pub fn empty_way(s: &mut State, target: Target, rng: &mut Rng) -> Option<()> {
    let (address, value) = match rng.percent(50) {
        true => (1 + rng.below(63) as u8, 0),
        false => (0, 1 << rng.below(32)),
    };
    put(s, target, Line { address, page: Place::Empty, value })
}

pub fn empty_slot(s: &mut State, target: Target, rng: &mut Rng) -> Option<()> {
    s.tlb[target.place] = Slot { address: 1 + rng.below(63) as u8, page: Place::Empty };
    Some(())
}

/// Another value of a line that is there.
pub fn line_value(s: &mut State, target: Target, rng: &mut Rng) -> Option<()> {
    s.policy = Policy::WriteThrough;
    let line = line_mut(s, target.place);
    line.page.page()?;
    line.value ^= 1 << rng.below(32);
    Some(())
}

/// A line of a page that some table maps in this set, with another value.
pub fn line_with_value(s: &mut State, target: Target, rng: &mut Rng) -> Option<()> {
    s.policy = Policy::WriteThrough;
    let set = target.place / WAYS;
    let mapped = |page: Mach| {
        let at = s.addresses_of(page);
        let here = move |va: &Virt| va.home() == set && at & va.bit() != 0;
        Virt::all().filter(here).map(move |va| (va, page))
    };
    let keys: Vec<(Virt, Mach)> =
        Mach::all().filter(|page| s.page(*page).is_cacheable()).flat_map(mapped).collect();
    let (va, page) = rng.pick(&keys)?;
    let value = s.page(page).memory ^ 1 << rng.below(32);
    put(s, target, Line::new(va, page, value))
}

/// With a line before it that leads nowhere, and is passed over.
pub fn value_behind_nowhere(s: &mut State, target: Target, rng: &mut Rng) -> Option<()> {
    let before = (target.place > 0).then(|| rng.below(target.place))?;
    line_with_value(s, target, rng)?;
    let page = Place::from_byte(past_pages(rng));
    *line_mut(s, before) = Line { address: 0, page, value: rng.draw() as u32 };
    Some(())
}

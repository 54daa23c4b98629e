//! Damages aimed at rules 7 to 10: cache, translation buffer, empty places.

use crate::damage::aimed::{any_page, is_guests};
use crate::numbers::{GuestId, Mach, Place, Virt, STEALTH};
use crate::rng::Rng;
use crate::state::{Line, Page, Set, Slot, State};

pub type At = (usize, usize);

pub fn line_at(s: &State, (set, way): At) -> &Line {
    &s.cache[set].ways[way]
}

/// Some way outside set 7, empty or not.
pub fn any_way(s: &State, rng: &mut Rng, empty: bool) -> Option<At> {
    let all: Vec<At> = (0..7)
        .flat_map(|set| [(set, 0), (set, 1)])
        .filter(|at| line_at(s, *at).page.is_empty() == empty)
        .collect();
    rng.pick(&all)
}

pub fn put_line(s: &mut State, (set, way): At, line: Line) -> Option<()> {
    s.cache[set].ways[way] = line;
    Some(())
}

/// Any value, but under write-through mostly the page's in memory, so that rule 11 is spared.
fn any_value(s: &State, rng: &mut Rng, page: Mach) -> u32 {
    match s.writes_through() && rng.percent(80) {
        true => s.page(page).memory,
        false => rng.draw() as u32,
    }
}

pub fn key_twice(s: &mut State, rng: &mut Rng) -> Option<()> {
    let (set, way) = any_way(s, rng, false)?;
    let line = s.cache[set].ways[way];
    put_line(s, (set, 1 - way), line)
}

pub fn key_twice_misplaced(s: &mut State, rng: &mut Rng) -> Option<()> {
    let line = *line_at(s, any_way(s, rng, false)?);
    let to = any_way(s, rng, true)?;
    put_line(s, to, line)
}

pub fn line_in_other_set(s: &mut State, rng: &mut Rng) -> Option<()> {
    let from = any_way(s, rng, false)?;
    let to = any_way(s, rng, true)?;
    (from.0 != to.0).then_some(())?;
    let line = *line_at(s, from);
    put_line(s, from, Line::EMPTY);
    put_line(s, to, line)
}

pub fn line_unmapped(s: &mut State, rng: &mut Rng) -> Option<()> {
    let at = any_way(s, rng, true)?;
    let va = Virt::new((at.0 + 8 * rng.below(6)) as u8)?;
    let page = any_page(s, rng, |page| is_guests(page) && page.is_data() && page.is_cacheable())?;
    (s.addresses_of(page) & va.bit() == 0).then_some(())?;
    let value = any_value(s, rng, page);
    put_line(s, at, Line::new(va, page, value))
}

pub fn line_uncacheable(s: &mut State, rng: &mut Rng) -> Option<()> {
    let page = line_at(s, any_way(s, rng, false)?).page.page()?;
    s.page_mut(page).mark = rng.pick(&[0, 0, 2])?;
    Some(())
}

/// Takes the entry away from every table, and from the TLB, but leaves the line.
pub fn line_without_entry(s: &mut State, rng: &mut Rng) -> Option<()> {
    let (va, page) = line_at(s, any_way(s, rng, false)?).key()?;
    for table in s.pages.iter_mut().filter(|table| table.is_table()) {
        if table.entries[va.index()] == Place::At(page) {
            table.entries[va.index()] = Place::Empty;
        }
    }
    s.forget(va);
    Some(())
}

pub fn line_of_host(s: &mut State, rng: &mut Rng) -> Option<()> {
    let at = any_way(s, rng, true)?;
    let va = Virt::new(at.0 as u8)?;
    put_line(s, at, Line::new(va, Mach::new(4)?, 0))
}

pub fn line_nowhere(s: &mut State, rng: &mut Rng) -> Option<()> {
    let at = any_way(s, rng, false)?;
    let line = &mut s.cache[at.0].ways[at.1];
    if rng.percent(50) {
        line.address = line.address.wrapping_add(64);
    } else {
        line.page = Place::from_byte(65 + rng.below(191) as u8);
    }
    Some(())
}

fn any_slot(s: &State, rng: &mut Rng, empty: bool) -> Option<usize> {
    let all: Vec<usize> = (0..8).filter(|i| s.tlb[*i].page.is_empty() == empty).collect();
    rng.pick(&all)
}

pub fn slot_other_page(s: &mut State, rng: &mut Rng) -> Option<()> {
    let i = any_slot(s, rng, false)?;
    let other = any_page(s, rng, Page::is_data)?;
    (s.tlb[i].page != Place::At(other)).then_some(())?;
    s.tlb[i].page = Place::At(other);
    Some(())
}

pub fn slot_moved(s: &mut State, rng: &mut Rng) -> Option<()> {
    let from = any_slot(s, rng, false)?;
    let to = any_slot(s, rng, true)?;
    s.tlb[to] = s.tlb[from];
    if rng.percent(50) {
        s.tlb[from] = Slot::EMPTY;
    }
    Some(())
}

pub fn slot_unmapped(s: &mut State, rng: &mut Rng) -> Option<()> {
    let va = Virt::new(rng.below(64) as u8)?;
    let page = any_page(s, rng, Page::is_data)?;
    (s.maps(s.table_in_force()?, va) != Some(page)).then_some(())?;
    s.tlb[va.home()] = Slot::new(va, page);
    Some(())
}

pub fn slot_nowhere(s: &mut State, rng: &mut Rng) -> Option<()> {
    let i = any_slot(s, rng, false)?;
    if rng.percent(50) {
        s.tlb[i].address = s.tlb[i].address.wrapping_add(64);
    } else {
        s.tlb[i].page = Place::from_byte(65 + rng.below(191) as u8);
    }
    Some(())
}

/// The table in force becomes nowhere while TLB entries stand.
pub fn slot_without_table(s: &mut State, rng: &mut Rng) -> Option<()> {
    any_slot(s, rng, false)?;
    lose_table(s, rng)
}

fn lose_table(s: &mut State, rng: &mut Rng) -> Option<()> {
    let guest = GuestId::new(s.active)?;
    match rng.below(3) {
        0 => s.active = 4 + rng.below(252) as u8,
        1 => s.guest_mut(guest).current = 16 + rng.below(240) as u8,
        _ => {
            let current = s.guest(guest).current as usize;
            s.guest_mut(guest).physical[current] = Place::Empty;
        }
    }
    Some(())
}

fn stealth_set(s: &mut State) -> &mut Set {
    &mut s.cache[STEALTH.home()]
}

pub fn stealth_history(s: &mut State, rng: &mut Rng) -> Option<()> {
    stealth_set(s).history = rng.pick(&[1, 1, 1, 2, 255])?;
    Some(())
}

pub fn stealth_line_gone(s: &mut State, _: &mut Rng) -> Option<()> {
    stealth_set(s).ways[0].page.page()?;
    stealth_set(s).ways[0] = Line::EMPTY;
    Some(())
}

pub fn stealth_line_moved(s: &mut State, _: &mut Rng) -> Option<()> {
    stealth_set(s).ways[0].page.page()?;
    stealth_set(s).ways.swap(0, 1);
    Some(())
}

/// A stealth page of some table that isn't in force.
fn other_stealth(s: &State, rng: &mut Rng) -> Option<Mach> {
    let own = s.table_in_force().and_then(|table| s.maps(table, STEALTH));
    let all: Vec<Mach> = Mach::all()
        .filter(|m| s.addresses_of(*m) & STEALTH.bit() != 0 && Some(*m) != own)
        .collect();
    rng.pick(&all)
}

pub fn other_stealth_line(s: &mut State, rng: &mut Rng) -> Option<()> {
    let page = other_stealth(s, rng)?;
    let value = any_value(s, rng, page);
    stealth_set(s).ways[0] = Line::new(STEALTH, page, value);
    Some(())
}

pub fn second_stealth_line(s: &mut State, rng: &mut Rng) -> Option<()> {
    let page = other_stealth(s, rng)?;
    let value = any_value(s, rng, page);
    stealth_set(s).ways[1] = Line::new(STEALTH, page, value);
    Some(())
}

pub fn stealth_without_table(s: &mut State, rng: &mut Rng) -> Option<()> {
    stealth_set(s).ways[0].page.page()?;
    lose_table(s, rng)
}

pub fn empty_way_address(s: &mut State, rng: &mut Rng) -> Option<()> {
    let (set, way) = any_way(s, rng, true)?;
    s.cache[set].ways[way].address = 1 + rng.below(255) as u8;
    Some(())
}

pub fn empty_way_value(s: &mut State, rng: &mut Rng) -> Option<()> {
    let (set, way) = any_way(s, rng, true)?;
    s.cache[set].ways[way].value = 1 << rng.below(32);
    Some(())
}

pub fn empty_slot_address(s: &mut State, rng: &mut Rng) -> Option<()> {
    let i = any_slot(s, rng, true)?;
    s.tlb[i].address = 1 + rng.below(255) as u8;
    Some(())
}

pub fn odd_history(s: &mut State, rng: &mut Rng) -> Option<()> {
    s.cache[rng.below(7)].history = 2 + rng.below(254) as u8;
    Some(())
}

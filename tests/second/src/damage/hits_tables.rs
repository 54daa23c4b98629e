//! What breaks rules 3, 4, 5 and 6 at a place: physical addresses, entries, current tables, marks.

use crate::damage::hits::{any_page, guest, page, past_pages};
use crate::damage::places::Target;
use crate::numbers::{GuestId, Mach, Phys, Place, Virt, STEALTH};
use crate::rng::Rng;
use crate::state::{Kind, Owner, Page, State};

fn address(target: Target) -> Option<(GuestId, Phys)> {
    let (guest, pa) = (target.place / Phys::COUNT, target.place % Phys::COUNT);
    Some((GuestId::new(guest as u8)?, Phys::new(pa as u8)?))
}

fn lead(s: &mut State, target: Target, to: Place) -> Option<()> {
    let (guest, pa) = address(target)?;
    s.guest_mut(guest).physical[pa.index()] = to;
    Some(())
}

pub fn address_nowhere(s: &mut State, target: Target, rng: &mut Rng) -> Option<()> {
    lead(s, target, Place::from_byte(past_pages(rng)))
}

pub fn address_to_any(s: &mut State, target: Target, rng: &mut Rng) -> Option<()> {
    lead(s, target, Place::At(any_page(rng)?))
}

/// The page of another address of the guest: both break the rule, and the first is named.
pub fn address_twice(s: &mut State, target: Target, rng: &mut Rng) -> Option<()> {
    let (guest, pa) = address(target)?;
    let others = Phys::all().filter(|other| *other != pa).filter_map(|pa| s.registered(guest, pa));
    let to = rng.pick(&others.collect::<Vec<Mach>>())?;
    lead(s, target, Place::At(to))
}

pub fn page_unreached(s: &mut State, target: Target, _: &mut Rng) -> Option<()> {
    let page = page(target)?;
    let Owner::Guest(guest) = s.page(page).owner else { return None };
    let physical = &mut s.guest_mut(guest).physical;
    *physical.iter_mut().find(|place| **place == Place::At(page))? = Place::Empty;
    Some(())
}

/// A guest's, and at none of its addresses.
pub fn page_taken(s: &mut State, target: Target, rng: &mut Rng) -> Option<()> {
    let page = page(target)?;
    let guest = GuestId::new(rng.below(GuestId::COUNT) as u8)?;
    let kind = rng.pick(&[Kind::Data, Kind::Table])?;
    (s.page(page).owner == Owner::Nobody || page.is_host()).then_some(())?;
    *s.page_mut(page) = Page::owned(Owner::Guest(guest), kind);
    s.free &= !page.bit();
    Some(())
}

fn put_entry(s: &mut State, target: Target, to: Place) -> Option<()> {
    let page = Mach::new((target.place / Virt::COUNT) as u8)?;
    s.page_mut(page).entries[target.place % Virt::COUNT] = to;
    Some(())
}

pub fn entry_nowhere(s: &mut State, target: Target, rng: &mut Rng) -> Option<()> {
    put_entry(s, target, Place::from_byte(past_pages(rng)))
}

pub fn entry_to_any(s: &mut State, target: Target, rng: &mut Rng) -> Option<()> {
    put_entry(s, target, Place::At(any_page(rng)?))
}

pub fn current_anywhere(s: &mut State, target: Target, rng: &mut Rng) -> Option<()> {
    s.guest_mut(guest(target)?).current = rng.below(Phys::COUNT) as u8;
    Some(())
}

pub fn current_past(s: &mut State, target: Target, rng: &mut Rng) -> Option<()> {
    s.guest_mut(guest(target)?).current = 16 + rng.below(240) as u8;
    Some(())
}

pub fn current_led_away(s: &mut State, target: Target, rng: &mut Rng) -> Option<()> {
    let guest = guest(target)?;
    let pa = Phys::new(s.guest(guest).current)?;
    let any = any_page(rng)?;
    let to = rng.pick(&[Place::Empty, Place::Nowhere(65), Place::At(any)])?;
    s.guest_mut(guest).physical[pa.index()] = to;
    Some(())
}

/// A table to map the page, mostly of its owner.
fn table_for(s: &State, page: Mach, rng: &mut Rng) -> Option<Mach> {
    let tables: Vec<Mach> = Mach::all().filter(|table| s.page(*table).is_table()).collect();
    let owner = s.page(page).owner;
    let own: Vec<Mach> = tables.iter().copied().filter(|t| s.page(*t).owner == owner).collect();
    rng.pick(&own).or_else(|| rng.pick(&tables))
}

/// A data page, cacheable and mapped at two addresses.
pub fn page_shared(s: &mut State, target: Target, rng: &mut Rng) -> Option<()> {
    let page = page(target)?;
    if !s.page(page).is_data() && rng.percent(50) {
        s.page_mut(page).kind = Kind::Data;
    }
    s.page_mut(page).mark = 1;
    let open: Vec<Virt> = Virt::all().filter(|va| !va.is_reserved() && *va != STEALTH).collect();
    for _ in 0..2 {
        let (table, va) = (table_for(s, page, rng)?, rng.pick(&open)?);
        s.page_mut(table).entries[va.index()] = Place::At(page);
    }
    Some(())
}

/// A page that is mapped at 7, and not cacheable.
pub fn stealth_unmarked(s: &mut State, target: Target, rng: &mut Rng) -> Option<()> {
    let page = page(target)?;
    if s.addresses_of(page) & STEALTH.bit() == 0 {
        let table = table_for(s, page, rng)?;
        s.page_mut(table).entries[STEALTH.index()] = Place::At(page);
    }
    s.page_mut(page).mark = rng.pick(&[0, 0, 2, 255])?;
    Some(())
}

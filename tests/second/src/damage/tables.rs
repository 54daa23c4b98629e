//! Damages aimed at rules 4, 5 and 6: entries, current tables, marks.

use crate::damage::aimed::{any_guest, any_page, any_physical, is_guests};
use crate::numbers::{GuestId, Mach, Phys, Place, Virt, STEALTH};
use crate::rng::Rng;
use crate::state::{Kind, Owner, Page, State};

fn any_address(rng: &mut Rng, reserved: bool) -> Option<Virt> {
    let all: Vec<Virt> = Virt::all().filter(|va| va.is_reserved() == reserved).collect();
    rng.pick(&all)
}

/// A guest's data page, mostly one that no table maps, so that rule 6 is spared.
fn data_page(s: &State, rng: &mut Rng, wanted: impl Fn(&Page) -> bool) -> Option<Mach> {
    let all: Vec<Mach> = Mach::all()
        .filter(|m| is_guests(s.page(*m)) && s.page(*m).is_data() && wanted(s.page(*m)))
        .collect();
    let bare: Vec<Mach> = all.iter().copied().filter(|m| s.addresses_of(*m) == 0).collect();
    let bare = if rng.percent(80) { rng.pick(&bare) } else { None };
    bare.or_else(|| rng.pick(&all))
}

fn put_entry(s: &mut State, holder: Mach, va: Virt, place: Place) -> Option<()> {
    s.page_mut(holder).entries[va.index()] = place;
    Some(())
}

/// An open, not reserved address of some guest's table.
fn open_entry(s: &State, rng: &mut Rng) -> Option<(Mach, Virt)> {
    let table = any_page(s, rng, Page::is_table)?;
    let va = any_address(rng, false)?;
    s.page(table).entries[va.index()].is_empty().then_some((table, va))
}

pub fn entry_in_no_table(s: &mut State, rng: &mut Rng) -> Option<()> {
    let holder = any_page(s, rng, |page| !page.is_table())?;
    let owner = s.page(holder).owner;
    let target = any_page(s, rng, |page| page.is_data() && page.owner == owner)
        .or_else(|| Mach::new(rng.below(64) as u8))?;
    let va = if rng.percent(25) { STEALTH } else { any_address(rng, false)? };
    put_entry(s, holder, va, Place::At(target))
}

pub fn reserved_entry(s: &mut State, rng: &mut Rng) -> Option<()> {
    let table = any_page(s, rng, Page::is_table)?;
    let owner = s.page(table).owner;
    let target = data_page(s, rng, |page| page.owner == owner)?;
    let va = any_address(rng, true)?;
    put_entry(s, table, va, Place::At(target))
}

pub fn entry_to_foreign(s: &mut State, rng: &mut Rng) -> Option<()> {
    let (table, va) = open_entry(s, rng)?;
    let owner = s.page(table).owner;
    let target = data_page(s, rng, |page| page.owner != owner)?;
    put_entry(s, table, va, Place::At(target))
}

pub fn entry_to_table(s: &mut State, rng: &mut Rng) -> Option<()> {
    let (table, va) = open_entry(s, rng)?;
    let owner = s.page(table).owner;
    let target = any_page(s, rng, |page| page.is_table() && page.owner == owner)?;
    put_entry(s, table, va, Place::At(target))
}

pub fn entry_to_free(s: &mut State, rng: &mut Rng) -> Option<()> {
    let (table, va) = open_entry(s, rng)?;
    let target = any_page(s, rng, |page| page.owner == Owner::Nobody)?;
    put_entry(s, table, va, Place::At(target))
}

pub fn entry_to_host(s: &mut State, rng: &mut Rng) -> Option<()> {
    let (table, va) = open_entry(s, rng)?;
    let target = any_page(s, rng, |page| page.owner == Owner::Host)?;
    put_entry(s, table, va, Place::At(target))
}

pub fn entry_nowhere(s: &mut State, rng: &mut Rng) -> Option<()> {
    let table = any_page(s, rng, Page::is_table)?;
    let va = if rng.percent(30) { STEALTH } else { any_address(rng, false)? };
    put_entry(s, table, va, Place::from_byte(65 + rng.below(191) as u8))
}

/// Two pages with the same number that is no owner, one mapped by the other.
pub fn odd_owners(s: &mut State, rng: &mut Rng) -> Option<()> {
    let table = any_page(s, rng, |page| page.owner == Owner::Nobody)?;
    let target = any_page(s, rng, |page| page.owner == Owner::Nobody)?;
    let odd = Owner::Odd(6 + rng.below(250) as u8);
    for (m, kind) in [(table, Kind::Data), (target, Kind::Data), (table, Kind::Table)] {
        *s.page_mut(m) = Page::owned(odd, kind);
        s.free &= !m.bit();
    }
    let va = any_address(rng, false)?;
    put_entry(s, table, va, Place::At(target))
}

/// A table without owner, or of the host, that maps such a page: rule 2 is broken, and 4 is not.
pub fn entry_of_no_guest(s: &mut State, rng: &mut Rng) -> Option<()> {
    let owner = rng.pick(&[Owner::Nobody, Owner::Host])?;
    let table = any_page(s, rng, |page| page.owner == owner)?;
    let target = any_page(s, rng, |page| page.owner == owner)?;
    (table != target).then_some(())?;
    s.page_mut(table).kind = Kind::Table;
    s.page_mut(target).kind = Kind::Data;
    let va = any_address(rng, false)?;
    put_entry(s, table, va, Place::At(target))
}

/// Mostly a guest that isn't active, so that rules 8 and 9 are spared.
fn some_guest(s: &State, rng: &mut Rng) -> GuestId {
    let guest = any_guest(rng);
    if guest.byte() == s.active {
        any_guest(rng)
    } else {
        guest
    }
}

pub fn current_unregistered(s: &mut State, rng: &mut Rng) -> Option<()> {
    let guest = some_guest(s, rng);
    let pa = any_physical(s, rng, guest, |page| page.is_none())?;
    s.guest_mut(guest).current = pa.byte();
    Some(())
}

pub fn current_no_table(s: &mut State, rng: &mut Rng) -> Option<()> {
    let guest = some_guest(s, rng);
    let pa = any_physical(s, rng, guest, |page| page.is_some_and(|m| s.page(m).is_data()))?;
    s.guest_mut(guest).current = pa.byte();
    Some(())
}

pub fn current_nowhere(s: &mut State, rng: &mut Rng) -> Option<()> {
    let guest = some_guest(s, rng);
    s.guest_mut(guest).current = 16 + rng.below(240) as u8;
    Some(())
}

/// The current address leads to another guest's table: in force all the same.
pub fn current_foreign(s: &mut State, rng: &mut Rng) -> Option<()> {
    let guest = any_guest(rng);
    let table = any_page(s, rng, |page| page.is_table() && page.owner != Owner::Guest(guest))?;
    let pa = Phys::new(s.guest(guest).current)?;
    s.guest_mut(guest).physical[pa.index()] = Place::At(table);
    Some(())
}

/// A data page with such addresses.
fn mapped_page(s: &State, rng: &mut Rng, wanted: impl Fn(u64) -> bool) -> Option<Mach> {
    let data = Mach::all().filter(|m| s.page(*m).is_data());
    let all: Vec<Mach> = data.filter(|m| wanted(s.addresses_of(*m))).collect();
    rng.pick(&all)
}

pub fn shared_cacheable(s: &mut State, rng: &mut Rng) -> Option<()> {
    let m = mapped_page(s, rng, |addresses| addresses.count_ones() >= 2)?;
    s.page_mut(m).mark = 1;
    Some(())
}

pub fn stealth_uncacheable(s: &mut State, rng: &mut Rng) -> Option<()> {
    let m = mapped_page(s, rng, |addresses| addresses & STEALTH.bit() != 0)?;
    s.page_mut(m).mark = 0;
    Some(())
}

pub fn odd_stealth_mark(s: &mut State, rng: &mut Rng) -> Option<()> {
    let m = mapped_page(s, rng, |addresses| addresses & STEALTH.bit() != 0)?;
    s.page_mut(m).mark = 2 + rng.below(254) as u8;
    Some(())
}

pub fn stealth_shared(s: &mut State, rng: &mut Rng) -> Option<()> {
    let m = mapped_page(s, rng, |addresses| addresses & STEALTH.bit() != 0)?;
    let owner = s.page(m).owner;
    let table = any_page(s, rng, |page| page.is_table() && page.owner == owner)?;
    let va = any_address(rng, false)?;
    let open = s.page(table).entries[va.index()].is_empty();
    (open && va != STEALTH).then_some(())?;
    put_entry(s, table, va, Place::At(m))
}

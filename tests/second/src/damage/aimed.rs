//! Damages by the rule they are aimed at, and rules 1, 2 and 3.

use crate::damage::{buffers as b, policies as p, tables as t};
use crate::numbers::{GuestId, Mach, Phys, Place};
use crate::rng::Rng;
use crate::rules::RULES;
use crate::state::{Kind, Mode, Owner, Page, Pending, State};

/// None where the state has no place for the damage.
pub type Damage = fn(&mut State, &mut Rng) -> Option<()>;

pub const AIMED: [&[Damage]; RULES] = [
    &[running_with_a_call, argument_past_its_range, unused_argument],
    &[
        host_page_value,
        host_page_mark,
        host_page_kind,
        free_page_value,
        free_page_mark,
        free_page_kind,
        map_bit,
        table_value,
        table_mark,
        guest_page_kind,
        odd_owner_marked_free,
        another_host_page,
        t::entry_of_no_guest,
    ],
    &[unregister, register_twice, register_foreign, swap_registered, register_nowhere],
    &[
        t::entry_in_no_table,
        t::reserved_entry,
        t::entry_to_foreign,
        t::entry_to_table,
        t::entry_to_free,
        t::entry_to_host,
        t::entry_nowhere,
        t::odd_owners,
    ],
    &[t::current_unregistered, t::current_no_table, t::current_nowhere, t::current_foreign],
    &[t::shared_cacheable, t::stealth_uncacheable, t::stealth_shared, t::odd_stealth_mark],
    &[
        b::key_twice,
        b::line_in_other_set,
        b::line_unmapped,
        b::line_uncacheable,
        b::line_without_entry,
        b::line_of_host,
        b::line_nowhere,
        p::line_nowhere_with_any_value,
        b::key_twice_misplaced,
    ],
    &[b::slot_other_page, b::slot_moved, b::slot_unmapped, b::slot_nowhere, b::slot_without_table],
    &[
        b::stealth_history,
        b::stealth_line_gone,
        b::stealth_line_moved,
        b::other_stealth_line,
        b::second_stealth_line,
        b::stealth_without_table,
    ],
    &[
        b::empty_way_address,
        b::empty_way_value,
        b::empty_slot_address,
        b::odd_history,
        odd_mode,
        odd_active,
        odd_call,
        argument_of_no_call,
        odd_mark,
        odd_owner_unmarked,
        odd_kind,
        p::odd_policy,
        p::odd_policy_with_a_dirty_line,
    ],
    &[
        p::line_value,
        p::value_under_a_line,
        p::through_with_a_dirty_line,
        p::key_twice_with_another_value,
        p::line_of_any_page,
        p::line_of_no_address,
    ],
];

pub fn any_page(s: &State, rng: &mut Rng, wanted: impl Fn(&Page) -> bool) -> Option<Mach> {
    let all: Vec<Mach> = Mach::all().filter(|m| wanted(s.page(*m))).collect();
    rng.pick(&all)
}

pub fn any_guest(rng: &mut Rng) -> GuestId {
    GuestId::new(rng.below(GuestId::COUNT) as u8).expect("in range")
}

/// A physical address of the guest that leads to such a page.
pub fn any_physical(
    s: &State,
    rng: &mut Rng,
    guest: GuestId,
    wanted: impl Fn(Option<Mach>) -> bool,
) -> Option<Phys> {
    let all: Vec<Phys> = Phys::all().filter(|pa| wanted(s.registered(guest, *pa))).collect();
    rng.pick(&all)
}

pub fn is_guests(page: &Page) -> bool {
    matches!(page.owner, Owner::Guest(_))
}

fn set_call(s: &mut State, guest: GuestId, number: u8, a: u8, b: u8) -> Option<()> {
    s.guest_mut(guest).pending = Pending { number, a, b };
    Some(())
}

fn running_with_a_call(s: &mut State, rng: &mut Rng) -> Option<()> {
    s.mode = Mode::Running;
    let number = 1 + rng.below(5) as u8;
    let b = if matches!(number, 1 | 4) { rng.below(2) as u8 } else { 0 };
    set_call(s, GuestId::new(s.active)?, number, rng.below(16) as u8, b)
}

fn argument_past_its_range(s: &mut State, rng: &mut Rng) -> Option<()> {
    let (number, a, b) = rng.pick(&[
        (1, 64, 0),
        (1, 63, 16),
        (2, 64, 0),
        (3, 16, 0),
        (4, 16, 1),
        (4, 3, 2),
        (5, 16, 0),
    ])?;
    set_call(s, any_guest(rng), number, a, b)
}

fn unused_argument(s: &mut State, rng: &mut Rng) -> Option<()> {
    let number = rng.pick(&[2, 3, 5])?;
    set_call(s, any_guest(rng), number, rng.below(16) as u8, 1)
}

fn odd_call(s: &mut State, rng: &mut Rng) -> Option<()> {
    let number = rng.pick(&[6, 7, 255])?;
    set_call(s, any_guest(rng), number, rng.byte(), rng.byte())
}

fn argument_of_no_call(s: &mut State, rng: &mut Rng) -> Option<()> {
    let (a, b) = rng.pick(&[(1, 0), (0, 1), (64, 200)])?;
    set_call(s, any_guest(rng), 0, a, b)
}

fn odd_mode(s: &mut State, rng: &mut Rng) -> Option<()> {
    s.mode = Mode::Odd(2 + rng.below(254) as u8);
    Some(())
}

fn odd_active(s: &mut State, rng: &mut Rng) -> Option<()> {
    s.active = rng.pick(&[4, 5, 255])?;
    if rng.percent(50) {
        s.tlb = crate::state::fresh().tlb;
        s.cache[7] = crate::state::Set::EMPTY;
    }
    Some(())
}

fn host_page(rng: &mut Rng) -> Mach {
    Mach::new(4 + rng.below(4) as u8).expect("in range")
}

fn host_page_value(s: &mut State, rng: &mut Rng) -> Option<()> {
    s.page_mut(host_page(rng)).memory = 1 << rng.below(32);
    Some(())
}

fn host_page_mark(s: &mut State, rng: &mut Rng) -> Option<()> {
    s.page_mut(host_page(rng)).mark = 0;
    Some(())
}

fn host_page_kind(s: &mut State, rng: &mut Rng) -> Option<()> {
    s.page_mut(host_page(rng)).kind = rng.pick(&[Kind::None, Kind::Table])?;
    Some(())
}

fn another_host_page(s: &mut State, rng: &mut Rng) -> Option<()> {
    let m = any_page(s, rng, |page| page.owner == Owner::Nobody)?;
    *s.page_mut(m) = Page::owned(Owner::Host, Kind::Data);
    s.free &= !m.bit();
    Some(())
}

fn free_page(s: &State, rng: &mut Rng) -> Option<Mach> {
    any_page(s, rng, |page| page.owner == Owner::Nobody)
}

fn free_page_value(s: &mut State, rng: &mut Rng) -> Option<()> {
    let m = free_page(s, rng)?;
    s.page_mut(m).memory = 1 << rng.below(32);
    Some(())
}

fn free_page_mark(s: &mut State, rng: &mut Rng) -> Option<()> {
    let m = free_page(s, rng)?;
    s.page_mut(m).mark = 0;
    Some(())
}

fn free_page_kind(s: &mut State, rng: &mut Rng) -> Option<()> {
    let m = free_page(s, rng)?;
    s.page_mut(m).kind = rng.pick(&[Kind::Data, Kind::Table])?;
    Some(())
}

fn map_bit(s: &mut State, rng: &mut Rng) -> Option<()> {
    s.free ^= 1 << rng.below(64);
    Some(())
}

fn table_value(s: &mut State, rng: &mut Rng) -> Option<()> {
    let m = any_page(s, rng, Page::is_table)?;
    s.page_mut(m).memory = 1 << rng.below(32);
    Some(())
}

fn table_mark(s: &mut State, rng: &mut Rng) -> Option<()> {
    let m = any_page(s, rng, Page::is_table)?;
    s.page_mut(m).mark = 0;
    Some(())
}

fn guest_page_kind(s: &mut State, rng: &mut Rng) -> Option<()> {
    let m = any_page(s, rng, |page| is_guests(page) && page.is_data())?;
    s.page_mut(m).kind = Kind::None;
    Some(())
}

fn odd_owner_marked_free(s: &mut State, rng: &mut Rng) -> Option<()> {
    let m = free_page(s, rng)?;
    s.page_mut(m).owner = Owner::Odd(6 + rng.below(250) as u8);
    Some(())
}

/// Nobody's page: not in the map, rule 2 does not ask it to be data or a table.
fn odd_owner_unmarked(s: &mut State, rng: &mut Rng) -> Option<()> {
    let m = free_page(s, rng)?;
    s.page_mut(m).owner = Owner::Odd(6 + rng.below(250) as u8);
    s.page_mut(m).kind = rng.pick(&[Kind::None, Kind::Data, Kind::Table])?;
    s.free &= !m.bit();
    Some(())
}

fn odd_mark(s: &mut State, rng: &mut Rng) -> Option<()> {
    let m = any_page(s, rng, |page| is_guests(page) && page.is_data())?;
    s.page_mut(m).mark = 2 + rng.below(254) as u8;
    Some(())
}

fn odd_kind(s: &mut State, rng: &mut Rng) -> Option<()> {
    let m = any_page(s, rng, |_| true)?;
    s.page_mut(m).kind = Kind::Odd(3 + rng.below(253) as u8);
    Some(())
}

fn unregister(s: &mut State, rng: &mut Rng) -> Option<()> {
    let guest = any_guest(rng);
    let current = s.guest(guest).current;
    let pa = any_physical(s, rng, guest, |page| page.is_some())?;
    let pa = if pa.byte() == current { Phys::new((current + 1) % 16)? } else { pa };
    s.registered(guest, pa)?;
    s.guest_mut(guest).physical[pa.index()] = Place::Empty;
    Some(())
}

/// Leads an open physical address of some guest to a page.
fn register(s: &mut State, rng: &mut Rng, guest: GuestId, place: Place) -> Option<()> {
    let pa = any_physical(s, rng, guest, |page| page.is_none())?;
    s.guest_mut(guest).physical[pa.index()] = place;
    Some(())
}

fn register_twice(s: &mut State, rng: &mut Rng) -> Option<()> {
    let guest = any_guest(rng);
    let page = any_page(s, rng, |page| page.owner == Owner::Guest(guest))?;
    register(s, rng, guest, Place::At(page))
}

fn register_foreign(s: &mut State, rng: &mut Rng) -> Option<()> {
    let guest = any_guest(rng);
    let page = any_page(s, rng, |page| page.owner != Owner::Guest(guest))?;
    register(s, rng, guest, Place::At(page))
}

fn register_nowhere(s: &mut State, rng: &mut Rng) -> Option<()> {
    let guest = any_guest(rng);
    let nowhere = Place::from_byte(65 + rng.below(191) as u8);
    register(s, rng, guest, nowhere)
}

fn swap_registered(s: &mut State, rng: &mut Rng) -> Option<()> {
    let (one, two) = (any_guest(rng), any_guest(rng));
    let data = |page: Option<Mach>| page.is_some_and(|m| s.page(m).is_data());
    let (pa, pb) = (any_physical(s, rng, one, data)?, any_physical(s, rng, two, data)?);
    let (page_a, page_b) = (s.registered(one, pa)?, s.registered(two, pb)?);
    s.guest_mut(one).physical[pa.index()] = Place::At(page_b);
    s.guest_mut(two).physical[pb.index()] = Place::At(page_a);
    Some(())
}

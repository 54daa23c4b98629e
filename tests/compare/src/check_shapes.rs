//! Damages that a reading of the rules could get wrong: what must be among the states that are reported.

use second::damage::named;
use second::numbers::Place;
use second::state::{Line, Owner, Policy, State};
use second::{GuestId, Mach, Phys, Virt};

use crate::versions::Version;

use Asked::{Broken, Holds};

/// What a shape asks of its rule.
#[derive(Clone, Copy)]
pub enum Asked {
    Broken(usize),
    Holds(usize),
}

impl Asked {
    pub fn is_so(self, broken: &[usize]) -> bool {
        match self {
            Asked::Broken(rule) => broken.contains(&rule),
            Asked::Holds(rule) => !broken.contains(&rule),
        }
    }
}

/// In words; what it asks of its rule; and whether a state, of an image of a version, has it.
pub type Shape = (&'static str, Asked, fn(Version, &State) -> bool);

pub const SHAPES: [Shape; 19] = [
    ("8 broken, the active guest out of range", Broken(8), |_, s| active(s).is_none()),
    ("8 broken, the current address out of range", Broken(8), |_, s| {
        active(s).is_some_and(|guest| Phys::new(s.guest(guest).current).is_none())
    }),
    ("8 broken, the current address empty", Broken(8), |_, s| current(s) == Some(Place::Empty)),
    ("8 broken, the current address leads nowhere", Broken(8), |_, s| {
        current(s).is_some_and(Place::leads_nowhere)
    }),
    ("8 broken, the current page no table", Broken(8), |_, s| {
        current(s).and_then(Place::page).is_some_and(|page| !s.page(page).is_table())
    }),
    ("9 broken, no table in force", Broken(9), |_, s| s.table_in_force().is_none()),
    ("3 broken, two addresses of a guest to its page", Broken(3), |_, s| address_twice(s)),
    ("3 broken, a page's number below the address's", Broken(3), |_, s| page_below_address(s)),
    ("4 broken, one number that is no owner on both pages", Broken(4), |_, s| same_odd_owner(s)),
    ("4 holds, an entry between pages without owner", Holds(4), |_, s| maps_own(s, Owner::Nobody)),
    ("4 holds, an entry between the host's pages", Holds(4), |_, s| maps_own(s, Owner::Host)),
    ("6 broken, a later page's entries first", Broken(6), |_, s| entries_out_of_order(s)),
    ("7 broken, a key again in a set that is not its own", Broken(7), |_, s| key_in_other_set(s)),
    ("9 broken, ways and history", Broken(9), |_, s| {
        s.cache[7].history != 0 && named(s, 9).is_some_and(|of| of.part == 0)
    }),
    ("10 broken, a number of a later part with a lower place", Broken(10), |_, s| {
        later_part_lower(s)
    }),
    ("10 broken, arguments of a call past the call's range alone", Broken(10), |_, s| {
        named(s, 10).is_some_and(|of| of.part == 20 && s.guests[of.place].pending.number != 0)
    }),
    ("11 broken behind a line that leads nowhere", Broken(11), |_, s| {
        let before = named(s, 11).map_or(0, |of| of.place);
        s.lines().take(before).any(|line| line.page.leads_nowhere())
    }),
    ("11 holds, version 1 with a line that memory has not", Holds(11), |version, s| {
        version == Version::One && has_dirty(s)
    }),
    ("11 holds, a policy out of range with a line that memory has not", Holds(11), |_, s| {
        matches!(s.policy, Policy::Odd(_)) && has_dirty(s)
    }),
];

fn active(s: &State) -> Option<GuestId> {
    GuestId::new(s.active)
}

/// Where the active guest's current table should be.
fn current(s: &State) -> Option<Place> {
    let guest = s.guest(active(s)?);
    Some(guest.physical[Phys::new(guest.current)?.index()])
}

fn has_dirty(s: &State) -> bool {
    !s.lines().all(|line| s.memory_has(line))
}

/// At the place that is named, to a page of that guest.
fn address_twice(s: &State) -> bool {
    let Some(of) = named(s, 3).filter(|of| of.part == 0) else { return false };
    let (g, pa) = (of.place / Phys::COUNT, of.place % Phys::COUNT);
    let physical = &s.guests[g].physical;
    let own = |page: Mach| {
        s.page(page).owner == GuestId::new(g as u8).map_or(Owner::Nobody, Owner::Guest)
    };
    physical[pa].page().is_some_and(own)
        && physical.iter().filter(|p| **p == physical[pa]).count() > 1
}

/// Where the second part has a broken place too, and a lower one.
fn page_below_address(s: &State) -> bool {
    let Some(of) = named(s, 3).filter(|of| of.part == 0) else { return false };
    let unreached = |page: &Mach| match s.page(*page).owner {
        Owner::Guest(guest) => !s.guest(guest).physical.contains(&Place::At(*page)),
        _ => false,
    };
    Mach::all().take(of.place).any(|page| unreached(&page))
}

fn same_odd_owner(s: &State) -> bool {
    let Some(of) = named(s, 4) else { return false };
    let page = &s.pages[of.place / Virt::COUNT];
    let to = page.entries[of.place % Virt::COUNT].page().map(|to| s.page(to));
    matches!(page.owner, Owner::Odd(_))
        && page.is_table()
        && to.is_some_and(|to| to.owner == page.owner)
}

/// A table of the owner has an entry.
fn maps_own(s: &State, owner: Owner) -> bool {
    s.pages.iter().any(|page| page.owner == owner && page.is_table() && page.has_entries())
}

/// The entry that stands first among those of all pages that break the rule is not of the page that is named.
fn entries_out_of_order(s: &State) -> bool {
    let Some(of) = named(s, 6) else { return false };
    let breaks = |page: Mach| {
        let (at, of) = (s.addresses_of(page), s.page(page));
        let shared = of.is_data() && at.count_ones() > 1;
        at != 0 && if of.is_cacheable() { shared } else { at & 1 << 7 != 0 }
    };
    let tables = s.pages.iter().filter(|table| table.is_table());
    let mut pages = tables.flat_map(|table| table.entries.iter().filter_map(|entry| entry.page()));
    pages.find(|page| breaks(*page)).is_some_and(|first| first.index() > of.place)
}

/// The line that is named has no other fault.
fn key_in_other_set(s: &State) -> bool {
    let Some(of) = named(s, 7) else { return false };
    let line = s.cache[of.place / 2].ways[of.place % 2];
    let Some((va, page)) = line.key() else { return false };
    let again = |other: &Line| other.key() == line.key();
    let right = va.home() == of.place / 2
        && s.page(page).is_data()
        && s.page(page).is_cacheable()
        && s.addresses_of(page) & va.bit() != 0;
    right && s.lines().skip(2 * (of.place / 2) + 2).any(again)
}

/// Numbers past their bounds in one field, and in one behind it at a lower place.
fn later_part_lower(s: &State) -> bool {
    let Some(of) = named(s, 10).filter(|of| of.part < 3) else { return false };
    let places = s.pages.iter().flat_map(|page| page.entries.iter());
    places.take(of.place).any(|entry| entry.leads_nowhere())
}

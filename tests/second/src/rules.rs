//! The eleven rules of a valid state, each judged by itself on any numbers whatever.

use crate::numbers::{GuestId, Mach, Phys, Place, Virt, STEALTH};
use crate::state::{Guest, Kind, Line, Mode, Owner, Page, Policy, State};

pub const RULES: usize = 11;

/// What one pass over all entries finds.
struct Survey {
    /// For each page the addresses at which tables map it, a bit for each.
    mapped_at: [u64; Mach::COUNT],
    /// Rule 4 holds.
    entries_stand_well: bool,
    /// No entry is out of range (rule 10).
    entries_in_range: bool,
}

/// Rule n at index n - 1; true where it holds.
pub fn rules(s: &State) -> [bool; RULES] {
    let survey = Survey::of(s);
    [
        rule1(s),
        rule2(s),
        rule3(s),
        survey.entries_stand_well,
        rule5(s),
        rule6(s, &survey),
        rule7(s, &survey),
        rule8(s),
        rule9(s),
        rule10(s, &survey),
        rule11(s),
    ]
}

pub fn valid(s: &State) -> bool {
    rules(s).iter().all(|holds| *holds)
}

impl Survey {
    fn of(s: &State) -> Survey {
        let mut survey = Survey {
            mapped_at: [0; Mach::COUNT],
            entries_stand_well: true,
            entries_in_range: true,
        };
        for holder in &s.pages {
            for va in Virt::all() {
                let place = holder.entries[va.index()];
                if !place.is_empty() {
                    survey.note(s, holder, va, place);
                }
            }
        }
        survey
    }

    fn note(&mut self, s: &State, holder: &Page, va: Virt, place: Place) {
        let Some(target) = place.page() else {
            self.entries_in_range = false;
            self.entries_stand_well = false;
            return;
        };
        self.entries_stand_well &= stands_well(holder, va, s.page(target));
        if holder.is_table() {
            self.mapped_at[target.index()] |= va.bit();
        }
    }
}

/// Rule 4 at one entry: "Only tables hold entries; an entry is at an address not
/// reserved and leads to a data page of the same owner."
fn stands_well(holder: &Page, va: Virt, target: &Page) -> bool {
    let an_owner = !matches!(holder.owner, Owner::Odd(_));
    holder.is_table()
        && !va.is_reserved()
        && target.is_data()
        && an_owner
        && target.owner == holder.owner
}

fn rule1(s: &State) -> bool {
    GuestId::all().all(|g| {
        let runs = s.active == g.byte() && s.mode == Mode::Running;
        let pending = s.guest(g).pending;
        !pending.is_stored() || (!runs && pending.fits())
    })
}

fn rule2(s: &State) -> bool {
    Mach::all().all(|m| {
        let page = s.page(m);
        let marked_free = s.free & m.bit() != 0;
        (page.owner == Owner::Host) == m.is_host()
            && marked_free == (page.owner == Owner::Nobody)
            && kind_suits_owner(page)
            && (!page.is_table() || is_plain(page))
    })
}

fn kind_suits_owner(page: &Page) -> bool {
    match page.owner {
        Owner::Nobody => page.kind == Kind::None && is_plain(page),
        Owner::Host => page.kind == Kind::Data && is_plain(page),
        Owner::Guest(_) => page.is_data() || page.is_table(),
        Owner::Odd(_) => true,
    }
}

/// Cacheable with value 0.
fn is_plain(page: &Page) -> bool {
    page.is_cacheable() && page.memory == 0
}

fn rule3(s: &State) -> bool {
    GuestId::all().all(|g| physical_leads_well(s, g))
}

/// The pages reached, all different, are exactly the pages owned.
fn physical_leads_well(s: &State, g: GuestId) -> bool {
    let mut reached = 0u64;
    for place in s.guest(g).physical.iter().filter(|place| !place.is_empty()) {
        let Some(page) = place.page() else { return false };
        if reached & page.bit() != 0 {
            return false;
        }
        reached |= page.bit();
    }
    let own = Mach::all().filter(|m| s.page(*m).owner == Owner::Guest(g));
    reached == own.fold(0, |all, m| all | m.bit())
}

fn rule5(s: &State) -> bool {
    GuestId::all().all(|g| {
        s.current_page(g).is_some_and(|m| {
            let page = s.page(m);
            page.is_table() && page.owner == Owner::Guest(g)
        })
    })
}

fn rule6(s: &State, survey: &Survey) -> bool {
    s.pages.iter().zip(survey.mapped_at).all(|(page, addresses)| {
        let shared = page.is_data() && addresses.count_ones() >= 2;
        let stealth = addresses & STEALTH.bit() != 0;
        (!shared || !page.is_cacheable()) && (!stealth || page.is_cacheable())
    })
}

fn rule7(s: &State, survey: &Survey) -> bool {
    let lines: Vec<(usize, &Line)> = (0..8)
        .flat_map(|set| s.cache[set].ways.iter().map(move |line| (set, line)))
        .filter(|(_, line)| !line.page.is_empty())
        .collect();
    let each = lines.iter().all(|(set, line)| line_stands_well(s, survey, *set, line));
    let keys = || lines.iter().map(|(_, line)| (line.address, line.page));
    let twice = |i: usize| keys().skip(i + 1).any(|key| Some(key) == keys().nth(i));
    each && !(0..lines.len()).any(twice)
}

fn line_stands_well(s: &State, survey: &Survey, set: usize, line: &Line) -> bool {
    line.key().is_some_and(|(va, m)| {
        let page = s.page(m);
        va.home() == set
            && page.is_data()
            && page.is_cacheable()
            && survey.mapped_at[m.index()] & va.bit() != 0
    })
}

fn rule8(s: &State) -> bool {
    let table = s.table_in_force();
    s.tlb.iter().enumerate().filter(|(_, slot)| !slot.page.is_empty()).all(|(i, slot)| {
        match (slot.key(), table) {
            (Some((va, page)), Some(t)) => va.home() == i && s.maps(t, va) == Some(page),
            _ => false,
        }
    })
}

fn rule9(s: &State) -> bool {
    let set = &s.cache[STEALTH.home()];
    let stealth_page = s.table_in_force().and_then(|t| s.maps(t, STEALTH));
    let first = match stealth_page {
        Some(page) => set.ways[0].key() == Some((STEALTH, page)),
        None => set.ways[0].page.is_empty(),
    };
    first && set.ways[1].page.is_empty() && set.history == 0
}

fn rule10(s: &State, survey: &Survey) -> bool {
    survey.entries_in_range
        && s.active < GuestId::COUNT as u8
        && !matches!(s.mode, Mode::Odd(_))
        && !matches!(s.policy, Policy::Odd(_))
        && s.pages.iter().all(page_in_range)
        && s.guests.iter().all(guest_in_range)
        && s.lines().all(line_in_range)
        && s.cache.iter().all(|set| set.history <= 1)
        && s.tlb.iter().all(|slot| place_in_range(slot.address, slot.page))
}

fn page_in_range(page: &Page) -> bool {
    let odd = matches!(page.owner, Owner::Odd(_)) || matches!(page.kind, Kind::Odd(_));
    !odd && page.mark <= 1
}

fn guest_in_range(guest: &Guest) -> bool {
    let physical = guest.physical.iter().all(|place| !place.leads_nowhere());
    physical && Phys::new(guest.current).is_some() && guest.pending.fits()
}

fn line_in_range(line: &Line) -> bool {
    place_in_range(line.address, line.page) && (!line.page.is_empty() || line.value == 0)
}

/// An address with its page: both in range, and address 0 where the place is empty.
fn place_in_range(address: u8, page: Place) -> bool {
    match page {
        Place::Empty => address == 0,
        Place::At(_) => Virt::new(address).is_some(),
        Place::Nowhere(_) => false,
    }
}

fn rule11(s: &State) -> bool {
    !s.writes_through() || s.lines().all(|line| s.memory_has(line))
}

//! Rules 2, 3, 4 and 6: what is tested at pages, physical addresses and entries.

use crate::broken::Where;
use crate::numbers::{GuestId, Mach, Phys, Place, Virt, STEALTH};
use crate::state::{Kind, Owner, Page, State};

/// Rule 2.
pub fn pages(s: &State) -> Option<Where> {
    Mach::all().find(|page| !page_is_right(s, *page)).map(Where::Page)
}

fn page_is_right(s: &State, number: Mach) -> bool {
    let page = s.page(number);
    let marked = s.free >> number.index() & 1 == 1;
    let plain = page.mark == 1 && page.memory == 0;
    let by_owner = match page.owner {
        Owner::Nobody => marked && page.kind == Kind::None && plain,
        Owner::Host => !marked && page.kind == Kind::Data && plain,
        Owner::Guest(_) => !marked && matches!(page.kind, Kind::Data | Kind::Table),
        // nobody's: no kind is asked for
        Owner::Odd(_) => !marked,
    };
    let host = matches!(number.byte(), 4..=7);
    by_owner && host == (page.owner == Owner::Host) && (page.kind != Kind::Table || plain)
}

/// Rule 3, part 0.
pub fn addresses(s: &State) -> Option<Where> {
    let all = GuestId::all().flat_map(|guest| Phys::all().map(move |pa| (guest, pa)));
    let mut wrong = all.filter(|(guest, pa)| !address_is_right(s, *guest, *pa));
    wrong.next().map(|(guest, pa)| Where::Physical(guest, pa))
}

fn address_is_right(s: &State, guest: GuestId, pa: Phys) -> bool {
    let physical = &s.guest(guest).physical;
    let place = physical[pa.index()];
    match place {
        Place::Empty => true,
        Place::Nowhere(_) => false,
        Place::At(page) => {
            let others = Phys::all().filter(|other| *other != pa);
            s.page(page).owner == Owner::Guest(guest)
                && others.into_iter().all(|other| physical[other.index()] != place)
        }
    }
}

/// Rule 3, part 1.
pub fn owned(s: &State) -> Option<Where> {
    Mach::all().find(|page| !is_reached(s, *page)).map(Where::Page)
}

/// By its owner, where that is a guest.
fn is_reached(s: &State, page: Mach) -> bool {
    match s.page(page).owner {
        Owner::Guest(guest) => s.guest(guest).physical.contains(&Place::At(page)),
        _ => true,
    }
}

/// Rule 4.
pub fn entries(s: &State) -> Option<Where> {
    let all = Mach::all().flat_map(|page| Virt::all().map(move |va| (page, va)));
    let mut wrong = all.filter(|(page, va)| !entry_is_right(s, *page, *va));
    wrong.next().map(|(page, va)| Where::Entry(page, va))
}

fn entry_is_right(s: &State, number: Mach, va: Virt) -> bool {
    let page = s.page(number);
    let to = match page.entries[va.index()] {
        Place::Empty => return true,
        Place::Nowhere(_) => return false,
        Place::At(to) => s.page(to),
    };
    let reserved = va.byte() >= 48 || matches!(va.byte(), 15 | 23 | 31 | 39 | 47);
    let same = match page.owner {
        // a number that is no owner is the same as none
        Owner::Odd(_) => false,
        owner => to.owner == owner,
    };
    page.kind == Kind::Table && !reserved && to.kind == Kind::Data && same
}

/// Rule 6.
pub fn marks(s: &State) -> Option<Where> {
    let tables: Vec<&Page> = s.pages.iter().filter(|page| page.kind == Kind::Table).collect();
    Mach::all().find(|page| !mark_is_right(s, &tables, *page)).map(Where::Page)
}

fn mark_is_right(s: &State, tables: &[&Page], number: Mach) -> bool {
    let page = s.page(number);
    let cacheable = page.mark == 1;
    let mapped = |va: Virt| tables.iter().any(|t| t.entries[va.index()] == Place::At(number));
    let addresses = Virt::all().filter(|va| mapped(*va)).count();
    let shared = page.kind == Kind::Data && addresses > 1;
    !(shared && cacheable) && (!mapped(STEALTH) || cacheable)
}

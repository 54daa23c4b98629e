//! The state as typed values. Numbers that can be damaged keep whatever they hold.

use crate::numbers::{GuestId, Mach, Phys, Place, Virt};
use crate::record::Call;

#[derive(Clone, Copy, PartialEq, Eq, Debug)]
pub enum Owner {
    Nobody,
    Host,
    Guest(GuestId),
    /// A number that is no owner.
    Odd(u8),
}

#[derive(Clone, Copy, PartialEq, Eq, Debug)]
pub enum Kind {
    None,
    Data,
    Table,
    /// A number that is no kind.
    Odd(u8),
}

#[derive(Clone, Copy, PartialEq, Eq, Debug)]
pub enum Mode {
    Waiting,
    Running,
    /// A number that is no mode.
    Odd(u8),
}

/// What a write to a line does to memory.
#[derive(Clone, Copy, PartialEq, Eq, Debug)]
pub enum Policy {
    WriteBack,
    WriteThrough,
    /// A number that is no policy.
    Odd(u8),
}

#[derive(Clone, PartialEq, Eq, Debug)]
pub struct Page {
    pub owner: Owner,
    pub kind: Kind,
    /// The cacheable mark; exactly 1 is cacheable.
    pub mark: u8,
    pub memory: u32,
    /// The table's entries; a row of empty places where the page is no table.
    pub entries: [Place; Virt::COUNT],
}

/// A pending call as its three numbers; number 0 for none.
#[derive(Clone, Copy, PartialEq, Eq, Debug)]
pub struct Pending {
    pub number: u8,
    pub a: u8,
    pub b: u8,
}

#[derive(Clone, PartialEq, Eq, Debug)]
pub struct Guest {
    pub physical: [Place; Phys::COUNT],
    /// The physical address of the current table.
    pub current: u8,
    pub pending: Pending,
}

#[derive(Clone, Copy, PartialEq, Eq, Debug)]
pub struct Line {
    pub address: u8,
    pub page: Place,
    pub value: u32,
}

#[derive(Clone, Copy, PartialEq, Eq, Debug)]
pub struct Set {
    pub ways: [Line; 2],
    pub history: u8,
}

/// A slot of the translation buffer.
#[derive(Clone, Copy, PartialEq, Eq, Debug)]
pub struct Slot {
    pub address: u8,
    pub page: Place,
}

#[derive(Clone, PartialEq, Eq, Debug)]
pub struct State {
    pub pages: [Page; Mach::COUNT],
    pub guests: [Guest; GuestId::COUNT],
    pub free: u64,
    pub active: u8,
    pub mode: Mode,
    pub cache: [Set; 8],
    pub tlb: [Slot; 8],
    pub policy: Policy,
}

impl Policy {
    pub const BOTH: [Policy; 2] = [Policy::WriteBack, Policy::WriteThrough];
}

impl Pending {
    pub const NONE: Pending = Pending { number: 0, a: 0, b: 0 };

    /// A stored call is a number 1 to 5.
    pub fn is_stored(self) -> bool {
        (1..=5).contains(&self.number)
    }

    /// Whether the arguments fit the number: in range, unused ones zero.
    pub fn fits(self) -> bool {
        self == Pending::NONE || Call::from_numbers(self.number, self.a, self.b).is_some()
    }
}

impl Line {
    pub const EMPTY: Line = Line { address: 0, page: Place::Empty, value: 0 };

    pub fn new(va: Virt, page: Mach, value: u32) -> Line {
        Line { address: va.byte(), page: Place::At(page), value }
    }

    /// Address and page, if both are in range.
    pub fn key(&self) -> Option<(Virt, Mach)> {
        Some((Virt::new(self.address)?, self.page.page()?))
    }
}

impl Set {
    pub const EMPTY: Set = Set { ways: [Line::EMPTY; 2], history: 0 };
}

impl Slot {
    pub const EMPTY: Slot = Slot { address: 0, page: Place::Empty };

    pub fn new(va: Virt, page: Mach) -> Slot {
        Slot { address: va.byte(), page: Place::At(page) }
    }

    pub fn key(&self) -> Option<(Virt, Mach)> {
        Some((Virt::new(self.address)?, self.page.page()?))
    }
}

impl Page {
    /// A page without owner.
    pub const FREE: Page = Page {
        owner: Owner::Nobody,
        kind: Kind::None,
        mark: 1,
        memory: 0,
        entries: [Place::Empty; Virt::COUNT],
    };

    pub fn owned(owner: Owner, kind: Kind) -> Page {
        Page { owner, kind, ..Page::FREE }
    }

    pub fn is_cacheable(&self) -> bool {
        self.mark == 1
    }

    pub fn is_table(&self) -> bool {
        self.kind == Kind::Table
    }

    pub fn is_data(&self) -> bool {
        self.kind == Kind::Data
    }

    pub fn has_entries(&self) -> bool {
        self.entries.iter().any(|entry| !entry.is_empty())
    }
}

impl State {
    pub fn page(&self, page: Mach) -> &Page {
        &self.pages[page.index()]
    }

    pub fn page_mut(&mut self, page: Mach) -> &mut Page {
        &mut self.pages[page.index()]
    }

    pub fn guest(&self, guest: GuestId) -> &Guest {
        &self.guests[guest.index()]
    }

    pub fn guest_mut(&mut self, guest: GuestId) -> &mut Guest {
        &mut self.guests[guest.index()]
    }

    /// The page at a guest's physical address.
    pub fn registered(&self, guest: GuestId, pa: Phys) -> Option<Mach> {
        self.guest(guest).physical[pa.index()].page()
    }

    /// The page that a guest's current address leads to, whatever it is.
    pub fn current_page(&self, guest: GuestId) -> Option<Mach> {
        self.registered(guest, Phys::new(self.guest(guest).current)?)
    }

    /// The active guest's current table; None where it is nowhere.
    pub fn table_in_force(&self) -> Option<Mach> {
        let page = self.current_page(GuestId::new(self.active)?)?;
        self.page(page).is_table().then_some(page)
    }

    /// The page that a table's entry leads to.
    pub fn maps(&self, table: Mach, va: Virt) -> Option<Mach> {
        self.page(table).entries[va.index()].page()
    }

    /// The addresses at which any table maps the page, a bit for each.
    pub fn addresses_of(&self, page: Mach) -> u64 {
        let tables = self.pages.iter().filter(|holder| holder.is_table());
        tables.fold(0, |all, table| all | row_addresses(table, page))
    }

    pub fn lines(&self) -> impl Iterator<Item = &Line> {
        self.cache.iter().flat_map(|set| set.ways.iter())
    }

    pub fn writes_through(&self) -> bool {
        self.policy == Policy::WriteThrough
    }

    /// Whether the line's value is its page's in memory; one that leads nowhere has no page.
    pub fn memory_has(&self, line: &Line) -> bool {
        line.page.page().is_none_or(|page| self.page(page).memory == line.value)
    }
}

fn row_addresses(table: &Page, page: Mach) -> u64 {
    let hits = Virt::all().filter(|va| table.entries[va.index()] == Place::At(page));
    hits.fold(0, |all, va| all | va.bit())
}

/// The fresh machine of a policy, from which nothing else is different.
pub fn fresh_with(policy: Policy) -> State {
    State { policy, ..fresh() }
}

/// The fresh machine.
pub fn fresh() -> State {
    let mut state = State {
        pages: std::array::from_fn(|_| Page::FREE),
        guests: std::array::from_fn(|_| unregistered_guest()),
        free: 0,
        active: 0,
        mode: Mode::Running,
        cache: [Set::EMPTY; 8],
        tlb: [Slot::EMPTY; 8],
        policy: Policy::WriteBack,
    };
    for page in Mach::all() {
        match GuestId::new(page.byte()) {
            Some(guest) => {
                *state.page_mut(page) = Page::owned(Owner::Guest(guest), Kind::Table);
                state.guest_mut(guest).physical[0] = Place::At(page);
            }
            None if page.is_host() => {
                *state.page_mut(page) = Page::owned(Owner::Host, Kind::Data);
            }
            None => state.free |= page.bit(),
        }
    }
    state
}

fn unregistered_guest() -> Guest {
    Guest { physical: [Place::Empty; Phys::COUNT], current: 0, pending: Pending::NONE }
}

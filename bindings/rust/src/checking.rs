//! What a check says of a host: of each rule that it holds, or the first place where it is broken.

use std::fmt;

use crate::{Guest, Pa, Va};

/// One of the eleven rules of a valid state (`docs/HOST.md`, "Valid states"), by its number.
#[derive(Clone, Copy, Debug, PartialEq, Eq, Hash, PartialOrd, Ord)]
pub struct Rule(u8);

impl Rule {
    /// All of them, in their order.
    pub const ALL: [Rule; 11] = [
        Rule(1),
        Rule(2),
        Rule(3),
        Rule(4),
        Rule(5),
        Rule(6),
        Rule(7),
        Rule(8),
        Rule(9),
        Rule(10),
        Rule(11),
    ];

    /// The rule of a number; `None` for 0 and for a number past 11.
    pub fn from_number(number: u8) -> Option<Rule> {
        Rule::ALL.into_iter().find(|rule| rule.number() == number)
    }

    /// Its number, 1 to 11.
    pub fn number(self) -> u8 {
        self.0
    }
}

/// What a check says of one rule.
#[derive(Clone, Copy, Debug, PartialEq, Eq, Hash)]
pub struct Finding {
    /// The rule.
    pub rule: Rule,
    /// The first place where it is broken; `None` if it holds.
    pub broken: Option<Place>,
}

impl Finding {
    /// Whether the rule holds.
    pub fn holds(&self) -> bool {
        self.broken.is_none()
    }
}

/// A place at which a rule is tested. `docs/RULES.md` has the places of each rule and their order, and what is asked at each.
#[derive(Clone, Copy, Debug, PartialEq, Eq, Hash)]
pub enum Place {
    /// A guest, of rules 1 and 5; of rule 10 where its call's arguments do not fit.
    Guest(Guest),
    /// A machine page, of rules 2, 3 and 6.
    Page(u8),
    /// A physical address, of rule 3.
    Physical {
        /// The guest whose address it is.
        guest: Guest,
        /// The address.
        address: Pa,
    },
    /// An entry, of rule 4.
    Entry {
        /// The machine page that has it, be that a table or not.
        page: u8,
        /// The virtual address that it is for.
        address: Va,
    },
    /// A way of the cache, of rules 7, 9 and 11; of rule 10 where it is empty and not all zero.
    Way {
        /// The set.
        set: u8,
        /// The way in the set.
        way: u8,
    },
    /// The history of a set, of rule 9.
    History {
        /// The set, that of the stealth address.
        set: u8,
    },
    /// A slot of the TLB, of rule 8; of rule 10 where it is empty and not all zero.
    Slot(u8),
    /// A number that is not in its range, of rule 10.
    Number {
        /// The field of the state that it is in.
        field: Field,
        /// Its place in the field.
        place: u16,
    },
    /// A place that has no name here. The library that this package was written for answers none; a later one may. It is kept as it
    /// is, as [`Refusal::Other`](crate::Refusal::Other) keeps a number.
    Other {
        /// The part of the rule.
        part: u8,
        /// The place's number in the part.
        place: u16,
    },
}

// of docs/HOST.md: physical addresses of a guest, virtual addresses, ways of a set, and the set of the stealth address
const PHYSICALS: u16 = 16;
const VIRTUALS: u16 = 64;
const WAYS: u16 = 2;
const STEALTH_SET: u8 = 7;

impl Place {
    /// The place of a broken rule, from its part and its number there.
    pub(crate) fn of(rule: Rule, part: u8, place: u16) -> Place {
        Place::named(rule, part, place).unwrap_or(Place::Other { part, place })
    }

    /// The table of docs/RULES.md.
    fn named(rule: Rule, part: u8, place: u16) -> Option<Place> {
        let one = u8::try_from(place).ok();
        let pair = |of: u16| Some((u8::try_from(place / of).ok()?, u8::try_from(place % of).ok()?));
        match (rule.number(), part) {
            (1 | 5, 0) | (10, 20) => one.map(|guest| Place::Guest(Guest(guest))),
            (2 | 6, 0) | (3, 1) => one.map(Place::Page),
            (3, 0) => pair(PHYSICALS)
                .map(|(guest, pa)| Place::Physical { guest: Guest(guest), address: Pa(pa) }),
            (4, 0) => pair(VIRTUALS).map(|(page, va)| Place::Entry { page, address: Va(va) }),
            (7 | 11, 0) | (10, 21) => pair(WAYS).map(|(set, way)| Place::Way { set, way }),
            (8, 0) | (10, 22) => one.map(Place::Slot),
            (9, 0) => one.map(|way| Place::Way { set: STEALTH_SET, way }),
            (9, 1) => Some(Place::History { set: STEALTH_SET }),
            (10, field) => {
                Field::ALL.get(usize::from(field)).map(|&field| Place::Number { field, place })
            }
            _ => None,
        }
    }
}

/// A field of a state. `docs/STATE.md` has its places and what its numbers mean.
#[derive(Clone, Copy, Debug, PartialEq, Eq, Hash)]
pub enum Field {
    /// Who owns each page.
    Owner,
    /// Each page's kind.
    Kind,
    /// Whether each page is cacheable.
    Cacheable,
    /// The entries of each page: the place is 64 times the page, and the virtual address.
    Entry,
    /// The physical addresses of each guest: the place is 16 times the guest, and the address.
    Physical,
    /// The map of free pages, one number.
    Free,
    /// The physical address of each guest's current table.
    Current,
    /// Each guest's pending call.
    Call,
    /// The call's argument a.
    CallA,
    /// The call's argument b.
    CallB,
    /// The active guest, one number.
    Active,
    /// Who has control, one number.
    Mode,
    /// Each line's virtual address: the place is twice the set, and the way.
    LineAddress,
    /// Each line's page, at the same place.
    LinePage,
    /// Each set's history.
    History,
    /// Each TLB slot's virtual address.
    SlotAddress,
    /// Each TLB slot's page.
    SlotPage,
    /// Each page's value in memory.
    Memory,
    /// Each line's value.
    Line,
    /// The write policy, one number.
    Policy,
}

impl Field {
    /// All of them, in the order in which they stand in a state.
    pub const ALL: [Field; 20] = [
        Field::Owner,
        Field::Kind,
        Field::Cacheable,
        Field::Entry,
        Field::Physical,
        Field::Free,
        Field::Current,
        Field::Call,
        Field::CallA,
        Field::CallB,
        Field::Active,
        Field::Mode,
        Field::LineAddress,
        Field::LinePage,
        Field::History,
        Field::SlotAddress,
        Field::SlotPage,
        Field::Memory,
        Field::Line,
        Field::Policy,
    ];

    fn name(self) -> &'static str {
        match self {
            Field::Owner => "owner",
            Field::Kind => "kind",
            Field::Cacheable => "cacheable",
            Field::Entry => "entry",
            Field::Physical => "physical",
            Field::Free => "free",
            Field::Current => "current",
            Field::Call => "call",
            Field::CallA => "callA",
            Field::CallB => "callB",
            Field::Active => "active",
            Field::Mode => "mode",
            Field::LineAddress => "lineAddress",
            Field::LinePage => "linePage",
            Field::History => "history",
            Field::SlotAddress => "slotAddress",
            Field::SlotPage => "slotPage",
            Field::Memory => "memory",
            Field::Line => "line",
            Field::Policy => "policy",
        }
    }
}

/// Its number.
impl fmt::Display for Rule {
    fn fmt(&self, f: &mut fmt::Formatter) -> fmt::Result {
        self.0.fmt(f)
    }
}

/// The line of `./rpj --check`: `3 holds`, or `3 broken guest 0 physical 1`.
impl fmt::Display for Finding {
    fn fmt(&self, f: &mut fmt::Formatter) -> fmt::Result {
        match self.broken {
            None => write!(f, "{} holds", self.rule),
            Some(place) => write!(f, "{} broken {place}", self.rule),
        }
    }
}

/// The words of `docs/RULES.md`: `page 9`, `set 7 history`, `callA 3`. Of a place without a name: `part 23 place 0`.
impl fmt::Display for Place {
    fn fmt(&self, f: &mut fmt::Formatter) -> fmt::Result {
        match self {
            Place::Guest(guest) => write!(f, "guest {guest}"),
            Place::Page(page) => write!(f, "page {page}"),
            Place::Physical { guest, address } => write!(f, "guest {guest} physical {address}"),
            Place::Entry { page, address } => write!(f, "page {page} address {address}"),
            Place::Way { set, way } => write!(f, "set {set} way {way}"),
            Place::History { set } => write!(f, "set {set} history"),
            Place::Slot(slot) => write!(f, "slot {slot}"),
            Place::Number { field, place } => write!(f, "{field} {place}"),
            Place::Other { part, place } => write!(f, "part {part} place {place}"),
        }
    }
}

/// Its name in `docs/STATE.md`.
impl fmt::Display for Field {
    fn fmt(&self, f: &mut fmt::Formatter) -> fmt::Result {
        f.write_str(self.name())
    }
}

//! The first place at which a rule is broken (docs/RULES.md), each rule by itself, on any numbers whatever.
//!
//! Written place by place beside rules.rs, and not from it: that both judge alike is tested.

mod buffers;
mod guests;
mod numbers;
mod pages;

use std::fmt;

use crate::bytes::FIELDS;
use crate::numbers::{GuestId, Mach, Phys, Virt, STEALTH};
use crate::rules::RULES;
use crate::state::State;

/// A place at which a rule is tested.
#[derive(Clone, Copy, PartialEq, Eq, Debug)]
pub enum Where {
    Guest(GuestId),
    Page(Mach),
    Physical(GuestId, Phys),
    Entry(Mach, Virt),
    /// A line, by set and way.
    Line(usize, usize),
    /// A way of set 7, of rule 9, which looks at no other set.
    StealthWay(usize),
    StealthHistory,
    Slot(usize),
    /// A number of a field of docs/STATE.md, by the place in it.
    Number(usize, usize),
}

/// Where a rule is broken first.
#[derive(Clone, Copy, PartialEq, Eq, Debug)]
pub struct Broken {
    pub part: u8,
    pub place: Where,
}

/// What is said of a rule's number.
#[derive(Clone, Copy, PartialEq, Eq, Debug)]
pub enum Judged {
    Holds,
    Broken(Broken),
    NoSuchRule,
}

/// The first place of a part at which the test fails.
type Part = fn(&State) -> Option<Where>;

/// How many places each part of each rule has.
pub const PLACES: [&[usize]; RULES] = [
    &[4],
    &[64],
    &[64, 64],
    &[4096],
    &[4],
    &[64],
    &[16],
    &[8],
    &[2, 1],
    &[
        64, 64, 64, 4096, 64, 1, 4, 4, 4, 4, 1, 1, 16, 16, 8, 8, 8, 64, 16, 1, // the fields
        4, 16, 8,
    ],
    &[16],
];

/// The parts of a rule, in their order; those of rule 10 that are fields stand before these.
fn parts(rule: u8) -> &'static [Part] {
    match rule {
        1 => &[guests::calls],
        2 => &[pages::pages],
        3 => &[pages::addresses, pages::owned],
        4 => &[pages::entries],
        5 => &[guests::current_tables],
        6 => &[pages::marks],
        7 => &[buffers::lines],
        8 => &[buffers::slots],
        9 => &[buffers::stealth_ways, buffers::stealth_history],
        10 => &[guests::arguments, buffers::empty_ways, buffers::empty_slots],
        11 => &[buffers::values],
        _ => &[],
    }
}

/// Any number may be asked for.
pub fn first_broken(state: &State, rule: u8) -> Judged {
    let (fields, parts) = match rule {
        10 => (FIELDS.len(), parts(rule)),
        _ => (0, parts(rule)),
    };
    if parts.is_empty() {
        return Judged::NoSuchRule;
    }
    let number = (fields > 0).then(|| numbers::past_their_bounds(state)).flatten();
    let later = || {
        let found = parts.iter().enumerate().find_map(|(i, part)| Some((i, part(state)?)));
        found.map(|(i, place)| Broken { part: (fields + i) as u8, place })
    };
    number.or_else(later).map_or(Judged::Holds, Judged::Broken)
}

impl Where {
    /// In its part.
    pub fn number(self) -> u16 {
        let number = match self {
            Where::Guest(guest) => guest.index(),
            Where::Page(page) => page.index(),
            Where::Physical(guest, pa) => Phys::COUNT * guest.index() + pa.index(),
            Where::Entry(page, va) => Virt::COUNT * page.index() + va.index(),
            Where::Line(set, way) => 2 * set + way,
            Where::StealthWay(way) => way,
            Where::StealthHistory => 0,
            Where::Slot(slot) => slot,
            Where::Number(_, at) => at,
        };
        number as u16
    }
}

impl fmt::Display for Where {
    fn fmt(&self, f: &mut fmt::Formatter) -> fmt::Result {
        let seven = STEALTH.home();
        match *self {
            Where::Guest(guest) => write!(f, "guest {}", guest.byte()),
            Where::Page(page) => write!(f, "page {}", page.byte()),
            Where::Physical(guest, pa) => {
                write!(f, "guest {} physical {}", guest.byte(), pa.byte())
            }
            Where::Entry(page, va) => write!(f, "page {} address {}", page.byte(), va.byte()),
            Where::Line(set, way) => write!(f, "set {set} way {way}"),
            Where::StealthWay(way) => write!(f, "set {seven} way {way}"),
            Where::StealthHistory => write!(f, "set {seven} history"),
            Where::Slot(slot) => write!(f, "slot {slot}"),
            Where::Number(field, at) => write!(f, "{} {at}", FIELDS[field]),
        }
    }
}

impl Judged {
    /// As C and Rust have it: the answer, the part, and the place's number, low byte first.
    pub fn bytes(self) -> [u8; 4] {
        match self {
            Judged::Holds => [0; 4],
            Judged::Broken(Broken { part, place }) => {
                let [low, high] = place.number().to_le_bytes();
                [1, part, low, high]
            }
            Judged::NoSuchRule => [2, 0, 0, 0],
        }
    }
}

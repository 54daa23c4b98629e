//! What must have been met over all twins, in words.

use std::fmt;

use second::GuestId;

/// What is different in the other journal.
pub const CHANGES: [&str; 11] = [
    "hidden record put in",
    "hidden record left out",
    "hidden record of another kind",
    "hidden write with another value alone",
    "hidden record with other bytes that are not used",
    "hidden record with another number in its place",
    "told write with another value, to a line",
    "told write with another value, to a page not cacheable",
    "told write with another value, no such record",
    "told write with another value, in the wrong mode",
    "told write with another value, reserved or not mapped",
];

/// What the second program's states say, each while V's values differ.
pub const STEPS: [&str; 20] = [
    "switch from V, its line of 7 other",
    "switch to V, the line of 7 loaded other",
    "switch of V to itself, its line of 7 other",
    "switch to another guest with a line of 7, V's other",
    "lswitch of V, the line of 7 saved other",
    "lswitch of V, the line of 7 loaded other",
    "lswitch of V from one page at 7 to another, the line saved other",
    "new_sm of V, the line loaded other",
    "del 7 by V, the line other",
    "del 7 by V, slot 7 filled in one run alone",
    "del elsewhere by V, the line other",
    "new by V in place of an entry, the line other",
    "page of V shared, the line other",
    "read by V, the value other",
    "read by another guest, the value not 0",
    "write by another guest",
    "page unpinned by V, its value other",
    "that page pinned by another guest",
    "that page pinned by V again",
    "that page read by another guest",
];

/// Of the machines at a place.
pub const ENDS: [&str; 11] = [
    "slot 7 other",
    "V's values in memory other",
    "V's lines in sets 0 to 6 other",
    "V's line in set 7 other",
    "all of these other at once",
    "other without hiding V",
    "the same without hiding V",
    "V running",
    "V waiting",
    "another guest active",
    "a line of V's while another guest is active",
];

/// Numbers that a hidden record, and any other, may get.
const HIDDEN: [u8; 4] = [0, 2, 3, 6];
const TOLD: [u8; 12] = [0, 2, 3, 4, 5, 6, 7, 8, 9, 10, 11, 12];

const FROM: [&str; 3] = ["the fresh machine", "one machine", "two machines"];
const POLICY: [&str; 2] = ["write-back", "write-through"];

#[derive(Clone, Copy, PartialEq, Eq, PartialOrd, Ord)]
pub enum Met {
    Profile(&'static str),
    V(u8),
    From(usize, u8),
    Change(usize),
    /// Kind and number.
    Hidden(u8, u8),
    /// Whether V was active, and the number.
    Told(bool, u8),
    Step(usize),
    /// The set, and whether V was active.
    Evicted(usize, bool),
    End(usize),
    Cut(usize),
}

pub fn all(profiles: impl Iterator<Item = &'static str>) -> Vec<Met> {
    let mut all: Vec<Met> = profiles.map(Met::Profile).collect();
    all.extend((0..GuestId::COUNT as u8).map(Met::V));
    all.extend((0..FROM.len()).flat_map(|from| [0, 1].map(|policy| Met::From(from, policy))));
    all.extend((0..CHANGES.len()).map(Met::Change));
    all.extend((1..=4).flat_map(|kind| HIDDEN.map(|number| Met::Hidden(kind, number))));
    all.extend([false, true].into_iter().flat_map(|v| TOLD.map(|number| Met::Told(v, number))));
    all.extend((0..STEPS.len()).map(Met::Step));
    all.extend((0..7).flat_map(|set| [false, true].map(|v| Met::Evicted(set, v))));
    all.extend((0..ENDS.len()).flat_map(|end| [Met::End(end), Met::Cut(end)]));
    all
}

impl fmt::Display for Met {
    fn fmt(&self, f: &mut fmt::Formatter) -> fmt::Result {
        let who = |v: bool| if v { "V" } else { "another guest" };
        match *self {
            Met::Profile(profile) => write!(f, "twins: {profile}"),
            Met::V(guest) => write!(f, "twins: V is guest {guest}"),
            Met::From(from, policy) => {
                write!(f, "twins: from {}, {}", FROM[from], POLICY[policy as usize % 2])
            }
            Met::Change(i) => write!(f, "twins: {}", CHANGES[i]),
            Met::Hidden(kind, number) => write!(f, "twins: hidden, kind {kind}: {number}"),
            Met::Told(v, number) => write!(f, "twins: told, {} active: {number}", who(v)),
            Met::Step(i) => write!(f, "twins: {}", STEPS[i]),
            Met::Evicted(set, v) => {
                write!(f, "twins: line of V's, other, taken out of set {set} by {}", who(v))
            }
            Met::End(i) => write!(f, "twins: at the end {}", ENDS[i]),
            Met::Cut(i) => write!(f, "twins: at a cut {}", ENDS[i]),
        }
    }
}

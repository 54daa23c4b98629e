//! What a call of feed or begin may be, and what all of them together must have been.

use std::fmt;

use second::HEADER;

/// What docs/HOST.md lets feed get.
const NUMBERS: [u8; 4] = [0, 1, 13, 15];

/// A number given, and one that comes later and applies too.
const ORDER: [(u8, u8); 3] = [(1, 13), (1, 15), (13, 15)];

/// Counts of what is kept that are refused with 13.
const COUNTS: [&str; 4] = [
    "the header's count past 8 alone",
    "the begun record's count past 7 alone",
    "both counts",
    "the header's count as 13 leaves it",
];

/// Buffers that are refused with 15.
const ROOMS: [&str; 5] = [
    "no buffer",
    "one byte too few",
    "fewer bytes",
    "for the records to be run, and more at hand",
    "for a begun record that the piece completes",
];

/// What becomes of a begun record.
const BEGUN: [&str; 4] =
    ["run, and none left", "run, and records left", "grown", "kept before a whole record"];
pub const GROWN: usize = 2;

/// The allowance beside the whole records at hand.
const ALLOWED: [&str; 6] = [
    "0 and none at hand",
    "0 and some at hand",
    "smaller than what is at hand",
    "all at hand",
    "larger than what is at hand",
    "as many as there can be",
];

/// What else a call that is answered 0 may be.
pub const DONE: [&str; 19] = [
    "header bytes taken with allowance 0",
    "header bytes taken, and a whole record left",
    "the header completed and a record run",
    "a header still short, with a begun record",
    "a record begun",
    "an empty piece",
    "the input ends with a begun record",
    "the input ends with records left",
    "a buffer of just the answers",
    "a buffer too short for all at hand",
    "a larger buffer",
    "no buffer and no record",
    "bytes behind the begun record made zeros",
    "more than 4,096 records",
    "a record accepted",
    "a record refused",
    "on the fresh machine",
    "on the fresh machine of write-through",
    "on a machine of write-through",
];

/// What begin is given.
const BEGINS: [&str; 3] = ["zeros", "what 13 left", "anything else"];

/// What happens from one call to the next.
#[derive(Clone, Copy, PartialEq, Eq, PartialOrd, Ord, Debug)]
pub enum Way {
    CutInHeader,
    CutInRecord,
    CutBetween,
    OfferedAgain,
    RoomAgain,
    RefusedAgain,
    BegunAgain,
    MoreThanAWhole,
    ByteByByte,
}

const WAYS: [(Way, &str); 9] = [
    (Way::CutInHeader, "one cut inside the header"),
    (Way::CutInRecord, "one cut inside a record"),
    (Way::CutBetween, "one cut between records"),
    (Way::OfferedAgain, "what was not taken is offered again and taken"),
    (Way::RoomAgain, "15, and 0 with a larger buffer"),
    (Way::RefusedAgain, "13, and 13 again"),
    (Way::BegunAgain, "13, begin, and the journal to its end"),
    (Way::MoreThanAWhole, "more than 4,096 records in all"),
    (Way::ByteByByte, "one byte in each call"),
];

pub const HEADER_BYTES: usize = HEADER.len();
pub const MOST_BEGUN: usize = 7;

#[derive(Clone, Copy, PartialEq, Eq, PartialOrd, Ord)]
pub enum Met {
    Number(u8),
    Order(u8, u8),
    /// 1, a rule broken alone.
    Rule(usize),
    /// 13 by what is kept.
    Count(usize),
    /// 13, by the place of the first wrong header byte and how many were taken before.
    Wrong(usize, usize),
    /// 13 at the end of the input, by how many header bytes there are, and whether the piece has any.
    Short(usize, bool),
    Room(usize),
    /// 0, by the header bytes taken before.
    Header(usize),
    /// 0, by the bytes of the begun record and what becomes of it.
    Begun(usize, usize),
    /// 0, by the bytes of the begun record afterwards.
    Kept(usize),
    /// 0, with a begun record or without.
    Allowed(usize, bool),
    Done(usize),
    Begin(usize),
    Way(Way),
}

impl fmt::Display for Met {
    fn fmt(&self, f: &mut fmt::Formatter) -> fmt::Result {
        match *self {
            Met::Number(number) => write!(f, "feed: {number}"),
            Met::Order(first, later) => write!(f, "feed: {first}, where {later} applies too"),
            Met::Rule(rule) => write!(f, "feed: 1, rule {} alone", rule + 1),
            Met::Count(i) => write!(f, "feed: 13, {}", COUNTS[i]),
            Met::Wrong(at, taken) => write!(f, "feed: 13, header byte {at} after {taken} taken"),
            Met::Short(header, some) => {
                let piece = if some { "a piece" } else { "no byte" };
                write!(f, "feed: 13, the input ends after {header} header bytes with {piece}")
            }
            Met::Room(i) => write!(f, "feed: 15, {}", ROOMS[i]),
            Met::Header(taken) => write!(f, "feed: 0, {taken} header bytes before"),
            Met::Begun(bytes, i) => write!(f, "feed: 0, a begun record of {bytes}: {}", BEGUN[i]),
            Met::Kept(bytes) => write!(f, "feed: 0, {bytes} bytes of a begun record left"),
            Met::Allowed(i, begun) => {
                let record = if begun { "a begun record" } else { "no begun record" };
                write!(f, "feed: 0, allowance {}, {record}", ALLOWED[i])
            }
            Met::Done(i) => write!(f, "feed: 0, {}", DONE[i]),
            Met::Begin(i) => write!(f, "begin: over {}", BEGINS[i]),
            Met::Way(way) => {
                let name = WAYS.iter().find(|(other, _)| *other == way).map(|(_, name)| *name);
                write!(f, "calls: {}", name.unwrap_or("no name"))
            }
        }
    }
}

/// All that must be met.
pub fn all() -> Vec<Met> {
    let mut all: Vec<Met> = NUMBERS.map(Met::Number).into();
    all.extend(ORDER.map(|(first, later)| Met::Order(first, later)));
    all.extend((0..second::RULES).map(Met::Rule));
    all.extend((0..COUNTS.len()).map(Met::Count));
    for at in 0..HEADER_BYTES {
        all.extend((0..=at).map(|taken| Met::Wrong(at, taken)));
        all.push(Met::Short(at, false));
        all.extend((at > 0).then_some(Met::Short(at, true)));
    }
    all.extend((0..ROOMS.len()).map(Met::Room));
    all.extend((0..=HEADER_BYTES).map(Met::Header));
    for bytes in 1..=MOST_BEGUN {
        // a byte more than seven is a whole record
        let ways = (0..BEGUN.len()).filter(|i| *i != GROWN || bytes < MOST_BEGUN);
        all.extend(ways.map(|i| Met::Begun(bytes, i)));
    }
    all.extend((0..=MOST_BEGUN).map(Met::Kept));
    all.extend((0..ALLOWED.len()).flat_map(|i| [Met::Allowed(i, false), Met::Allowed(i, true)]));
    all.extend((0..DONE.len()).map(Met::Done));
    all.extend((0..BEGINS.len()).map(Met::Begin));
    all.extend(WAYS.map(|(way, _)| Met::Way(way)));
    all
}

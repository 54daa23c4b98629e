//! What a check or a report may be, and what all of them together must have been.

use std::fmt;

use second::damage::{pairs, parts};
use second::{IMAGE_HEADER, RULES};

use crate::check_shapes::SHAPES;
use crate::image_tally::{old, LENGTHS};
use crate::versions::Version;

/// What told it: numbers, of a machine, or words, of an image.
#[derive(Clone, Copy, PartialEq, Eq, PartialOrd, Ord)]
pub enum By {
    Check,
    Report(Version),
}

impl By {
    const ALL: [By; 3] = [By::Check, By::Report(Version::One), By::Report(Version::Two)];

    /// An image of version 1 has no policy: it is write-back, so that 11 holds, and no policy is out of range.
    fn can_break(self, rule: usize, part: usize) -> bool {
        self != By::Report(Version::One) || !matches!((rule, part), (11, _) | (10, POLICY))
    }
}

impl fmt::Display for By {
    fn fmt(&self, f: &mut fmt::Formatter) -> fmt::Result {
        match self {
            By::Check => write!(f, "Check: "),
            By::Report(version) => write!(f, "Report: {}", old(*version)),
        }
    }
}

/// Where in its part a place stands. The one place of a part is its first.
#[derive(Clone, Copy, PartialEq, Eq, PartialOrd, Ord, Debug)]
pub enum At {
    First,
    Middle,
    Last,
}

impl At {
    pub fn of(place: usize, places: usize) -> At {
        match place {
            0 => At::First,
            _ if place + 1 == places => At::Last,
            _ => At::Middle,
        }
    }
}

/// Rule numbers that are none's, of those that are asked for.
pub const NO_RULES: [u8; 3] = [0, 12, 255];

/// The part of rule 10 that is the policy.
const POLICY: usize = 19;

/// Buffers beside the text.
pub const ROOMS: [&str; 5] =
    ["no buffer", "fewer bytes", "one byte too few", "just the text", "a larger buffer"];

#[derive(Clone, Copy, PartialEq, Eq, PartialOrd, Ord)]
pub enum Met {
    /// A number that is no rule's.
    NoRule(u8),
    Holds(By, usize),
    Broken(By, usize),
    Alone(By, usize),
    /// Two rules and no other.
    Pair(By, [usize; 2]),
    /// A rule, a part, and where in it the first broken place is.
    Place(By, usize, usize, At),
    /// Of an image, as a digit.
    Status(Version, u8),
    /// 16 for a byte of the header alone, with a state that is valid or not.
    Header(Version, usize, bool),
    /// 16 for a length alone.
    Length(Version, usize),
    /// Of a text of eleven lines, or of a refusal.
    Room(bool, usize),
    Shape(usize),
}

impl fmt::Display for Met {
    fn fmt(&self, f: &mut fmt::Formatter) -> fmt::Result {
        match *self {
            Met::NoRule(number) => write!(f, "Check: {number} is no rule"),
            Met::Holds(by, rule) => write!(f, "{by}rule {rule} holds"),
            Met::Broken(by, rule) => write!(f, "{by}rule {rule} broken"),
            Met::Alone(by, rule) => write!(f, "{by}rule {rule} broken alone"),
            Met::Pair(by, [a, b]) => write!(f, "{by}rules {a} and {b} broken, and no other"),
            Met::Place(by, rule, part, at) => {
                write!(f, "{by}rule {rule}, part {part}, {at:?} place")
            }
            Met::Status(v, digit) => write!(f, "Report: {}status {}", old(v), char::from(digit)),
            Met::Header(v, at, valid) => {
                let (of, state) = (old(v), if valid { "valid" } else { "not valid" });
                write!(f, "Report: 16, {of}byte {at} of the header alone, state {state}")
            }
            Met::Length(v, i) => write!(f, "Report: 16, {}{}", old(v), LENGTHS[i]),
            Met::Room(refused, i) => {
                let text = if refused { "refused" } else { "eleven lines" };
                write!(f, "Report: {text}, {}", ROOMS[i])
            }
            Met::Shape(i) => write!(f, "Report: {}", SHAPES[i].0),
        }
    }
}

/// All that must be met.
pub fn all() -> Vec<Met> {
    let mut all: Vec<Met> = NO_RULES.map(Met::NoRule).into();
    for by in By::ALL {
        all.extend((1..=RULES).map(|rule| Met::Holds(by, rule)));
        for rule in (1..=RULES).filter(|rule| by.can_break(*rule, 0)) {
            all.extend([Met::Broken(by, rule), Met::Alone(by, rule)]);
        }
        let pairs = pairs().filter(|pair| pair.iter().all(|rule| by.can_break(*rule, 0)));
        all.extend(pairs.map(|pair| Met::Pair(by, pair)));
        all.extend(all_places(by));
    }
    for version in Version::BOTH {
        all.extend([b'0', b'1'].map(|digit| Met::Status(version, digit)));
        let bytes = (0..IMAGE_HEADER.len()).flat_map(|at| [(at, true), (at, false)]);
        all.extend(bytes.map(|(at, valid)| Met::Header(version, at, valid)));
        all.extend((0..LENGTHS.len()).map(|i| Met::Length(version, i)));
    }
    for refused in [false, true] {
        all.extend((0..ROOMS.len()).map(|i| Met::Room(refused, i)));
    }
    all.extend((0..SHAPES.len()).map(Met::Shape));
    all
}

/// The first, a middle and the last place of each part, but for these: rule 10's free, memory and line, which no bytes break
/// (they are not among the parts); and parts of one place (rule 9's history, rule 10's active, mode and policy), which have a first
/// alone, or of two (rule 9's ways), which have no middle.
fn all_places(by: By) -> Vec<Met> {
    let of_part = |(rule, part, places): (usize, usize, usize)| {
        let at: &[At] = match places {
            1 => &[At::First],
            2 => &[At::First, At::Last],
            _ => &[At::First, At::Middle, At::Last],
        };
        at.iter().map(move |at| Met::Place(by, rule, part, *at))
    };
    let parts = parts().into_iter().filter(|(rule, part, _)| by.can_break(*rule, *part));
    parts.flat_map(of_part).collect()
}

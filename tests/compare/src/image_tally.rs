//! What was met by open, load and save, counted from our results.

use std::collections::BTreeMap;
use std::fmt;

use second::damage::broken_alone;
use second::{fresh, fresh_with, valid, Mach, Policy, State, IMAGE_BYTES, IMAGE_HEADER, STEALTH};

use second::bytes::FIELDS;

use crate::counts::Counts;
use crate::difference::field;
use crate::task::Task;
use crate::versions::Version;

#[derive(Clone, Copy, PartialEq, Eq, PartialOrd, Ord, Debug)]
enum By {
    Open,
    Load,
    Save,
}

/// What docs/HOST.md lets each get.
const NUMBERS: [(By, &[u8]); 3] =
    [(By::Open, &[0, 16]), (By::Load, &[0, 1, 16]), (By::Save, &[0, 1, 16])];

/// The machine that an image is put over, or that is saved.
const MACHINES: [&str; 4] = [
    "the fresh machine",
    "the fresh machine of write-through",
    "another valid machine",
    "a machine not valid",
];
const NOT_VALID: usize = 3;

/// Lengths that are wrong, of an image with the right header or of a buffer.
pub const LENGTHS: [&str; 5] =
    ["no byte", "one byte too few", "fewer bytes", "one byte too many", "more bytes"];

/// What a state has that was loaded or saved.
const CONTENTS: [&str; 10] = [
    "a line that memory has not",
    "a stealth line",
    "a TLB entry",
    "a pending call",
    "a page not cacheable",
    "the host in control",
    "another active guest than 0",
    "no free page",
    "write-back",
    "write-through",
];

/// What no image of version 1 has: write-through, and so rule 11 broken.
const THROUGH: usize = 9;
const RULE_11: usize = 10;

/// The fields that hold 0 or 1: cacheable, mode, history and policy, by their numbers in docs/STATE.md.
const FLAGS: [usize; 4] = [2, 11, 14, 19];

/// The image's byte that is the policy.
const POLICY: usize = IMAGE_BYTES - 1;

#[derive(Clone, Copy, PartialEq, Eq, PartialOrd, Ord)]
enum Met {
    Number(By, u8),
    Machine(By, u8, usize),
    Length(By, Version, u8, usize),
    /// A byte of the header alone, with a state that is valid or not.
    Header(By, Version, usize, bool),
    /// A rule broken alone.
    Rule(By, Version, usize),
    /// 2 in one of FLAGS, and no other change.
    Two(usize),
    Contents(By, Version, usize),
    /// Opened, and not valid.
    Unjudged(Version),
    /// Too long and not valid.
    Both(Version),
    /// The policy alone is the other one: write-through or not, and the number.
    Other(bool, u8),
}

/// That it is version 2 is not said.
pub fn old(version: Version) -> &'static str {
    match version {
        Version::One => "version 1, ",
        Version::Two => "",
    }
}

impl fmt::Display for Met {
    fn fmt(&self, f: &mut fmt::Formatter) -> fmt::Result {
        match *self {
            Met::Number(by, number) => write!(f, "{by:?}: {number}"),
            Met::Machine(by, number, i) => write!(f, "{by:?}: {number}, {}", MACHINES[i]),
            Met::Length(by, v, number, i) => {
                write!(f, "{by:?}: {number}, {}{}", old(v), LENGTHS[i])
            }
            Met::Header(by, v, at, valid) => {
                let (of, state) = (old(v), if valid { "valid" } else { "not valid" });
                write!(f, "{by:?}: 16, {of}byte {at} of the header alone, state {state}")
            }
            Met::Rule(by, v, rule) => write!(f, "{by:?}: 1, {}rule {} alone", old(v), rule + 1),
            Met::Two(i) => write!(f, "Load: 1, {} of 2 alone", FIELDS[FLAGS[i]]),
            Met::Contents(by, v, i) => write!(f, "{by:?}: 0, {}{}", old(v), CONTENTS[i]),
            Met::Unjudged(v) => write!(f, "Open: 0, {}state not valid", old(v)),
            Met::Both(v) => write!(f, "Load: 16, {}more bytes, state not valid", old(v)),
            Met::Other(through, number) => {
                let policy = CONTENTS[THROUGH - !through as usize];
                write!(f, "Load: {number}, the policy alone made {policy}")
            }
        }
    }
}

/// All that must be met, but for the places.
fn all() -> Vec<Met> {
    let mut all: Vec<Met> = Version::BOTH.map(Met::Unjudged).into();
    all.extend(Version::BOTH.map(Met::Both));
    for (by, numbers) in NUMBERS {
        for number in numbers {
            all.push(Met::Number(by, *number));
            // what is saved is valid exactly if it is not refused with 1
            let machines = (0..MACHINES.len())
                .filter(|i| by != By::Save || (*number == 1) == (*i == NOT_VALID));
            all.extend(machines.map(|i| Met::Machine(by, *number, i)));
        }
        // version 1 is not written
        let versions = Version::BOTH.into_iter().filter(|v| by != By::Save || *v == Version::Two);
        versions.for_each(|version| all.extend(all_of(by, version)));
    }
    all.extend((0..LENGTHS.len()).map(|i| Met::Length(By::Save, Version::Two, 1, i)));
    all.extend((0..FLAGS.len()).map(Met::Two));
    all.extend([(true, 0), (true, 1), (false, 0)].map(|(through, n)| Met::Other(through, n)));
    all
}

/// All of a version.
fn all_of(by: By, version: Version) -> Vec<Met> {
    let mut all: Vec<Met> = (0..LENGTHS.len()).map(|i| Met::Length(by, version, 16, i)).collect();
    if by != By::Save {
        let bytes = (0..IMAGE_HEADER.len()).flat_map(|at| [(at, true), (at, false)]);
        all.extend(bytes.map(|(at, valid)| Met::Header(by, version, at, valid)));
    }
    if by != By::Open {
        let can = |i: &usize, of_two: usize| version == Version::Two || *i != of_two;
        let rules = (0..second::RULES).filter(|rule| can(rule, RULE_11));
        all.extend(rules.map(|rule| Met::Rule(by, version, rule)));
        let contents = (0..CONTENTS.len()).filter(|i| can(i, THROUGH));
        all.extend(contents.map(|i| Met::Contents(by, version, i)));
    }
    all
}

pub struct ImageTally {
    counts: Counts<Met>,
    /// Each place of an image of each version that alone was changed, opened and loaded.
    places: BTreeMap<(By, Version), Vec<usize>>,
    pub tasks: usize,
}

impl Default for ImageTally {
    fn default() -> ImageTally {
        let both = Version::BOTH.map(|version| [(By::Open, version), (By::Load, version)]);
        let places = both.into_iter().flatten().map(|of| (of, vec![0; of.1.bytes()])).collect();
        ImageTally { counts: Counts::of(all()), places, tasks: 0 }
    }
}

impl ImageTally {
    /// The counts of which none may be 0.
    pub fn needed(&mut self) -> Vec<&mut usize> {
        self.counts.all().chain(self.places.values_mut().flatten()).collect()
    }

    pub fn note(&mut self, task: &Task, number: u8) {
        self.tasks += 1;
        let met = match task {
            Task::Open { machine, image } => self.note_taken(By::Open, machine, image, number),
            Task::Load { machine, image } => self.note_taken(By::Load, machine, image, number),
            Task::Save { machine, buffer } => of_saved(machine, buffer.len(), number),
            _ => Vec::new(),
        };
        for met in met {
            self.counts.add(met);
        }
    }

    fn note_taken(&mut self, by: By, machine: &[u8], image: &[u8], number: u8) -> Vec<Met> {
        let mut met = of_taken(by, machine, image, number);
        for version in Version::BOTH {
            if let Some(at) = changed_alone(version, machine, image) {
                self.places.entry((by, version)).or_default()[at] += 1;
                met.extend(of_flag(by, at, image[at], number).filter(|_| version == Version::Two));
            }
        }
        met
    }

    /// What was met, in words, but for the places.
    pub fn met(&self) -> Vec<String> {
        self.counts.met()
    }

    pub fn print(&self) {
        self.counts.print();
        for ((by, version), places) in &self.places {
            let met = places.iter().filter(|count| **count > 0).count();
            println!("{met:>8} {by:?}: {}bytes of an image changed alone", old(*version));
        }
    }

    /// What never happened, and what can't have.
    pub fn missing(&self) -> Vec<String> {
        let mut missing = self.counts.never();
        for ((by, version), places) in &self.places {
            let (of, never) = (old(*version), (0..places.len()).filter(|at| places[*at] == 0));
            missing.extend(never.map(|at| format!("never: {by:?}, {of}byte {at} changed alone")));
        }
        missing.extend(self.counts.others());
        missing
    }
}

/// The one place at which an image of the version is not that of the machine.
fn changed_alone(version: Version, machine: &[u8], image: &[u8]) -> Option<usize> {
    let before = [&version.header()[..], machine].concat();
    let mut other = (0..version.bytes()).filter(|at| image.get(*at) != Some(&before[*at]));
    let at = other.next()?;
    (image.len() == version.bytes() && other.next().is_none()).then_some(at)
}

/// What it is to load an image with one byte changed, where that is one of FLAGS.
fn of_flag(by: By, at: usize, byte: u8, number: u8) -> Option<Met> {
    let number_of_field = at.checked_sub(IMAGE_HEADER.len()).map(field)?;
    let flag = FLAGS.iter().position(|number| *number == number_of_field)?;
    match (by, byte, number) {
        (By::Load, 2, 1) => Some(Met::Two(flag)),
        (By::Load, 0 | 1, number) if at == POLICY => Some(Met::Other(byte == 1, number)),
        _ => None,
    }
}

fn which_machine(state: &State) -> usize {
    let fresh = [fresh(), fresh_with(Policy::WriteThrough)];
    match valid(state) {
        true => fresh.iter().position(|fresh| fresh == state).unwrap_or(NOT_VALID - 1),
        false => NOT_VALID,
    }
}

/// None for the right length.
pub fn which_length(version: Version, length: usize) -> Option<usize> {
    let longer = length > version.bytes();
    match length.abs_diff(version.bytes()) {
        0 => None,
        _ if length == 0 => Some(0),
        difference => Some(if longer { 3 } else { 1 } + (difference > 1) as usize),
    }
}

fn of_taken(by: By, machine: &[u8], image: &[u8], number: u8) -> Vec<Met> {
    let machine = which_machine(&State::from_bytes(machine));
    let mut met = vec![Met::Number(by, number), Met::Machine(by, number, machine)];
    for version in Version::BOTH {
        let starts = image.iter().zip(version.header()).enumerate();
        let wrong: Vec<usize> = starts.filter(|(_, (a, b))| *a != b).map(|(at, _)| at).collect();
        let length = which_length(version, image.len());
        if wrong.is_empty() {
            met.extend(length.map(|i| Met::Length(by, version, number, i)));
        }
        let Some(held) = version.held(image) else { continue };
        let valid = valid(&held);
        match (length, &wrong[..], number) {
            (None, [], 0) if by == By::Open => {
                met.extend((!valid).then_some(Met::Unjudged(version)));
            }
            (None, [], 0) => met.extend(contents(&held).map(|i| Met::Contents(by, version, i))),
            (None, [], 1) => {
                met.extend(broken_alone(&held).map(|rule| Met::Rule(by, version, rule)));
            }
            (None, [at], 16) => met.push(Met::Header(by, version, *at, valid)),
            (Some(_), [], 16) if by == By::Load => {
                met.extend((!valid).then_some(Met::Both(version)));
            }
            _ => {}
        }
    }
    met
}

fn of_saved(machine: &[u8], room: usize, number: u8) -> Vec<Met> {
    let (by, version, state) = (By::Save, Version::Two, State::from_bytes(machine));
    let mut met = vec![Met::Number(by, number), Met::Machine(by, number, which_machine(&state))];
    met.extend(which_length(version, room).map(|i| Met::Length(by, version, number, i)));
    match number {
        0 => met.extend(contents(&state).map(|i| Met::Contents(by, version, i))),
        1 => met.extend(broken_alone(&state).map(|rule| Met::Rule(by, version, rule))),
        _ => {}
    }
    met
}

/// Which of CONTENTS a valid state has.
fn contents(state: &State) -> impl Iterator<Item = usize> {
    let has = [
        !state.lines().all(|line| state.memory_has(line)),
        !state.cache[STEALTH.home()].ways[0].page.is_empty(),
        state.tlb.iter().any(|slot| !slot.page.is_empty()),
        state.guests.iter().any(|guest| guest.pending.is_stored()),
        Mach::all().any(|page| !state.page(page).is_cacheable()),
        state.mode.byte() == 0,
        state.active != 0,
        state.free == 0,
        state.policy == Policy::WriteBack,
        state.policy == Policy::WriteThrough,
    ];
    has.into_iter().enumerate().filter(|(_, has)| *has).map(|(i, _)| i)
}

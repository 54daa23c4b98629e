//! The program `rpj` where it checks an image: what it prints, its status, and that it leaves every file and reads no input.

use std::collections::BTreeMap;
use std::fmt;

use second::damage::in_pairs;
use second::{check, damage, fresh_with, State, IMAGE_BYTES, RULES, STATE_BYTES};

use crate::checks::places;
use crate::difference;
use crate::hosts::{no_images, Files, Left, NOT_TOLD, TOLD};
use crate::images::along;
use crate::plan::policy;
use crate::programs::{self, Program};
use crate::versions::Version;

/// The names that it is given: of an image, of no file, and of the folder itself.
const IMAGE: &str = "image";
const UNREAD: [&str; 2] = ["none", "."];

/// A run of the program in a folder of its own.
pub struct Checked {
    pub name: &'static str,
    /// What is in the folder, before and afterwards.
    pub files: Files,
}

impl Checked {
    fn image(image: Vec<u8>) -> Checked {
        Checked { name: IMAGE, files: [(IMAGE.into(), image)].into() }
    }

    /// What cannot be read, beside an image that could be.
    fn unread(name: &'static str) -> Checked {
        Checked { name, ..Checked::image(Version::Two.image_of(&fresh_with(policy(0)))) }
    }

    /// What the second program leaves.
    pub fn expected(&self) -> Left {
        let files = self.files.clone();
        match self.files.get(self.name) {
            Some(image) => {
                let ended = check(image);
                let status = ended.status.to_string().into_bytes();
                Left { text: ended.text.into_bytes(), status, message: NOT_TOLD, files }
            }
            None => Left { text: Vec::new(), status: b"2".to_vec(), message: TOLD, files },
        }
    }
}

/// Each rule broken alone, of both versions; 11 of one.
fn alone() -> Vec<Checked> {
    let states = damage::states(78, 400);
    let state = |rule| states.iter().find(|state| damage::broken_alone(state) == Some(rule));
    let both = (0..RULES).flat_map(|rule| Version::BOTH.map(|version| (rule, version)));
    both.filter_map(|(rule, v)| Some(Checked::image(v.image_of(state(rule)?)))).collect()
}

/// Valid, broken alone and with others, refused, and not to be read.
fn runs() -> Vec<Checked> {
    let fresh = (0..2).flat_map(|i| Version::BOTH.map(|v| v.image_of(&fresh_with(policy(i)))));
    let along = along().into_iter().step_by(7).map(|state| Version::Two.image_of(&state));
    let pairs = in_pairs(3, 1).into_iter().step_by(8).map(|(_, s)| Version::Two.image_of(&s));
    let all = [0, 255].map(|byte| Version::Two.image_of(&State::from_bytes(&[byte; STATE_BYTES])));
    let images = fresh.chain(along).chain(pairs).chain(all).chain(no_images());
    let mut runs: Vec<Checked> = images.map(Checked::image).collect();
    runs.extend(alone());
    runs.extend(UNREAD.map(Checked::unread));
    runs
}

/// A rule broken, a refusal, and what cannot be read.
pub fn few() -> Vec<Checked> {
    let refused = Checked::image(no_images().swap_remove(2));
    alone().into_iter().take(1).chain([refused, Checked::unread(UNREAD[0])]).collect()
}

/// What a run may be.
#[derive(Clone, Copy, PartialEq, Eq, PartialOrd, Ord)]
enum Met {
    Holds(Version),
    Broken(Version, usize),
    /// Mark, version, fewer bytes, more bytes.
    Refused(usize),
    Unread(usize),
}

const WRONG: [&str; 4] = ["mark", "version", "fewer bytes", "more bytes"];

impl fmt::Display for Met {
    fn fmt(&self, f: &mut fmt::Formatter) -> fmt::Result {
        match *self {
            Met::Holds(version) => write!(f, "version {version:?}, all rules hold"),
            Met::Broken(version, rule) => write!(f, "version {version:?}, rule {rule} broken"),
            Met::Refused(i) => write!(f, "refused for its {}", WRONG[i]),
            Met::Unread(i) => write!(f, "{:?} cannot be read", UNREAD[i]),
        }
    }
}

fn all_met() -> Vec<Met> {
    let mut all: Vec<Met> = Version::BOTH.map(Met::Holds).into();
    all.extend((1..=RULES).map(|rule| Met::Broken(Version::Two, rule)));
    // 11 is never broken in version 1
    all.extend((1..RULES).map(|rule| Met::Broken(Version::One, rule)));
    all.extend((0..WRONG.len()).map(Met::Refused));
    all.extend((0..UNREAD.len()).map(Met::Unread));
    all
}

/// How often each was met, counted from what ours leaves.
pub struct CheckedTally(BTreeMap<Met, usize>);

impl CheckedTally {
    fn new() -> CheckedTally {
        CheckedTally(all_met().into_iter().map(|met| (met, 0)).collect())
    }

    /// Everything met once.
    pub fn full() -> CheckedTally {
        CheckedTally(all_met().into_iter().map(|met| (met, 1)).collect())
    }

    /// The counts of which none may be 0.
    pub fn needed(&mut self) -> Vec<&mut usize> {
        self.0.values_mut().collect()
    }

    fn note(&mut self, run: &Checked, ours: &Left) {
        for met in met(run, ours) {
            *self.0.entry(met).or_default() += 1;
        }
    }

    /// What never happened, and what can't have.
    pub fn missing(&self) -> Vec<String> {
        let never = self.0.iter().filter(|(_, count)| **count == 0);
        let mut missing: Vec<String> = never.map(|(met, _)| format!("rpj never: {met}")).collect();
        let all = all_met();
        let others = self.0.keys().filter(|met| !all.contains(met));
        missing.extend(others.map(|met| format!("rpj, met, and cannot be: {met}")));
        missing
    }
}

fn met(run: &Checked, ours: &Left) -> Vec<Met> {
    let image = run.files.get(run.name);
    match (&ours.status[..], image, image.and_then(|image| Version::of(image))) {
        (b"2", None, _) => {
            UNREAD.iter().position(|name| *name == run.name).map(Met::Unread).into_iter().collect()
        }
        (b"0", _, Some(version)) => vec![Met::Holds(version)],
        (b"1", _, Some(version)) => {
            let rules = places(&ours.text).unwrap_or_default();
            let broken = (1..).zip(rules).filter(|(_, place)| place.is_some());
            broken.map(|(rule, _)| Met::Broken(version, rule)).collect()
        }
        (b"1", Some(image), None) => vec![Met::Refused(wrong(image))],
        _ => Vec::new(),
    }
}

/// The first thing that is.
fn wrong(image: &[u8]) -> usize {
    let [old, new] = Version::BOTH.map(|version| version.header());
    match image {
        _ if !image.starts_with(&new[..3]) && image.len() > 2 => 0,
        _ if !image.starts_with(&new) && !image.starts_with(&old) && image.len() > 4 => 1,
        _ => 2 + (image.len() > IMAGE_BYTES) as usize,
    }
}

/// Each run in a process and a folder of its own; gives how many there were.
pub fn all(rpj: Program) -> Result<usize, String> {
    let (runs, mut tally) = (runs(), CheckedTally::new());
    for (i, run) in runs.iter().enumerate() {
        let ours = programs::checked(rpj, run)?;
        if let Some(text) = difference::of_left(&ours, &run.expected()) {
            return Err(format!("difference: rpj checks {}, run {i}: {text}", run.name));
        }
        tally.note(run, &ours);
    }
    match &tally.missing()[..] {
        [] => Ok(runs.len()),
        missing => Err(missing.join("\n")),
    }
}

//! The program `rpj` from images and to images: what it prints, its status and the files that it leaves.

use std::collections::BTreeMap;
use std::fmt;

use second::{damage, fresh, image_of, old_image_of, program, streamed};
use second::{Policy, Start, State, IMAGE_BYTES, IMAGE_HEADER};

use crate::host_tally::HostTally;
use crate::journals::journal;
use crate::programs::{self, Program};
use crate::{difference, images};

pub type Files = BTreeMap<String, Vec<u8>>;

/// The words for the program, where an empty word names no image; and what is in the folder besides
/// the image that it starts from: an old one that it is to replace, a new one left on its way.
pub const FORMS: [(&str, &str, &[&str]); 9] = [
    ("kept", "kept", &[]),
    ("", "kept", &[]),
    ("kept", "", &[]),
    ("kept", "other", &[]),
    ("kept", "other", &["other"]),
    ("", "other", &["other", "other.new"]),
    ("kept", "other", &["other.new"]),
    ("kept", "kept", &["kept.new"]),
    ("", "", &[]),
];

/// Those that start from an image.
pub const FROM_IMAGE: [usize; 6] = [0, 2, 3, 4, 6, 7];

/// A message on standard error, or none.
pub const TOLD: [u8; 1] = [1];
pub const NOT_TOLD: [u8; 1] = [0];

/// A run of the program in a folder of its own.
#[derive(Clone)]
pub struct Host {
    pub form: usize,
    /// Whether write-through is asked for.
    pub through: bool,
    /// What is in the folder before.
    pub files: Files,
    pub journal: Vec<u8>,
    /// Where the journal is run as it arrives, in pieces of so many bytes.
    pub stream: Option<usize>,
}

/// What a run leaves.
#[derive(Clone, PartialEq)]
pub struct Left {
    pub text: Vec<u8>,
    /// What it said on descriptor 3.
    pub status: Vec<u8>,
    /// Whether it said anything on standard error.
    pub message: [u8; 1],
    pub files: Files,
}

impl Host {
    pub fn new(form: usize, image: &[u8], journal: Vec<u8>) -> Host {
        let (from, _, before) = FORMS[form];
        let mut files: Files = before.iter().map(|name| (name.to_string(), old(name))).collect();
        if !from.is_empty() {
            files.insert(from.into(), image.to_vec());
        }
        Host { form, through: false, files, journal, stream: None }
    }

    /// The same with write-through asked for, or not.
    pub fn through(self, through: bool) -> Host {
        Host { through, ..self }
    }

    /// The same with the journal run as it arrives.
    pub fn arriving(self, piece: usize) -> Host {
        Host { stream: Some(piece), ..self }
    }

    /// The names of the images that it starts from and saves to.
    pub fn words(&self) -> [&'static str; 2] {
        let (from, to, _) = FORMS[self.form];
        [from, to]
    }

    /// What the second program leaves.
    pub fn expected(&self) -> Left {
        let [_, to] = self.words();
        let mut files = self.files.clone();
        let start = Start { from: self.image(), through: self.through };
        let ended = match self.stream {
            None => program(start, &self.journal),
            Some(piece) => streamed(start, &self.journal, piece),
        };
        if let Some(image) = ended.saved.filter(|_| !to.is_empty()) {
            files.insert(to.into(), image);
            files.remove(&format!("{to}.new"));
        }
        let status = ended.status.to_string().into_bytes();
        let message = if ended.status == 2 { TOLD } else { NOT_TOLD };
        Left { text: ended.text.into_bytes(), status, message, files }
    }

    /// The image that it starts from.
    pub fn image(&self) -> Option<&[u8]> {
        self.files.get(self.words()[0]).map(|image| &image[..])
    }
}

impl fmt::Display for Host {
    fn fmt(&self, f: &mut fmt::Formatter) -> fmt::Result {
        let ([from, to], Host { through, stream, .. }) = (self.words(), self);
        write!(f, "from {from:?} to {to:?}, write-through {through}, stream by {stream:?}")
    }
}

/// What was left on its way is longer than an image, and none of it may stay behind one.
fn old(name: &str) -> Vec<u8> {
    match name.ends_with(".new") {
        true => vec![0xA5; 2 * IMAGE_BYTES],
        false => image_of(&fresh()),
    }
}

/// Runs that go on from where others led.
fn runs() -> Vec<Host> {
    let host = |(i, state)| Host::new(i % FORMS.len(), &image_of(state), turn(&PROFILES, i));
    images::along().iter().enumerate().map(host).collect()
}

/// Bytes that are no image.
pub fn no_images() -> Vec<Vec<u8>> {
    let image = image_of(&fresh());
    let with = |at: usize, byte: u8| {
        let mut image = image.clone();
        image[at] = byte;
        image
    };
    let longer = |more: usize| [&image[..], &vec![0; more]].concat();
    let cut = |length: usize| image[..length].to_vec();
    let old = old_image_of(&fresh());
    vec![
        cut(0),
        cut(1),
        cut(IMAGE_BYTES - 1),
        longer(1),
        longer(IMAGE_BYTES),
        longer(100_000),
        with(0, b'r'),
        with(3, 1),
        with(3, 3),
        with(4, 1),
        [&IMAGE_HEADER, &old[IMAGE_HEADER.len()..]].concat(),
        old[..old.len() - 1].to_vec(),
        journal("near", 3),
    ]
}

/// Images of states that each break one rule.
pub fn broken() -> Vec<Vec<u8>> {
    let states = damage::states(77, 300);
    let alone = |rule| states.iter().find(|state| damage::broken_alone(state) == Some(rule));
    (0..second::RULES).filter_map(alone).map(image_of).collect()
}

/// A state of the policy, of those along runs.
fn of_policy(along: &[State], policy: Policy, turn: usize) -> &State {
    let first = policy.byte() as usize * images::IN_A_ROW;
    &along[first + turn % images::IN_A_ROW]
}

/// Profiles of journals that are run, and one of those that may be too short.
const PROFILES: [&str; 5] = ["deep", "near", "blind", "declined", "lengths"];

fn turn(profiles: &[&str], i: usize) -> Vec<u8> {
    journal(profiles[i % profiles.len()], 2 + i as u64 / 8)
}

fn run(i: usize) -> Vec<u8> {
    turn(&PROFILES[..4], i)
}

/// Images of version 1, of states that were of either policy.
pub fn old_images() -> Vec<Host> {
    let along = images::along();
    let host = |(i, form): (usize, usize)| {
        let state = of_policy(&along, Policy::BOTH[i % 2], 11 - i);
        Host::new(form, &old_image_of(state), run(i))
    };
    FROM_IMAGE.into_iter().enumerate().map(host).collect()
}

/// Each form with write-through, from an image of it where there is one; and from images of write-back, whatever the journal is.
pub fn through() -> Vec<Host> {
    let along = images::along();
    let back = |turn| of_policy(&along, Policy::WriteBack, turn);
    let through = |turn| of_policy(&along, Policy::WriteThrough, turn);
    let image = |form| image_of(through(form));
    let mut hosts: Vec<Host> =
        (0..FORMS.len()).map(|form| Host::new(form, &image(form), run(form))).collect();
    let journals = [run(1), b"none".to_vec(), Vec::new(), journal("lengths", 65)];
    for (i, form) in FROM_IMAGE.into_iter().enumerate() {
        let images = [image_of(back(11 - i)), old_image_of(back(i)), old_image_of(through(i))];
        for (k, image) in images.iter().enumerate() {
            hosts.push(Host::new(form, image, journals[(i + k) % journals.len()].clone()));
        }
    }
    hosts.into_iter().map(|host| host.through(true)).collect()
}

/// Refused, whatever the journal is, and whether write-through is asked for or not.
fn refused_images() -> Vec<Host> {
    let mut hosts = Vec::new();
    for (i, image) in no_images().iter().chain(&broken()).enumerate() {
        for (k, journal) in [journal("near", 3), b"none".to_vec()].into_iter().enumerate() {
            let form = FROM_IMAGE[(i + k) % FROM_IMAGE.len()];
            let through = (i / FROM_IMAGE.len() + k) % 2 == 1;
            hosts.push(Host::new(form, image, journal).through(through));
        }
    }
    hosts
}

/// No journals, and journals with too many records, on write-back and with write-through by turns.
fn refused_journals() -> Vec<Host> {
    let journals = [("headers", 9), ("lengths", 0), ("lengths", 64), ("lengths", 65)];
    let along = images::along();
    let mut hosts = Vec::new();
    for (i, (profile, seed)) in journals.into_iter().enumerate() {
        for form in 0..FORMS.len() {
            let turn = (i + form) % 2;
            let image = image_of(of_policy(&along, Policy::BOTH[turn], 6));
            hosts.push(Host::new(form, &image, journal(profile, seed)).through(turn == 1));
        }
    }
    hosts
}

/// Runs of each policy that save over the image that they came from, a refusal and a wrong use.
pub fn few() -> [Host; 4] {
    let (short, along) = (|| journal("lengths", 37), images::along());
    let [back, through] = Policy::BOTH.map(|policy| image_of(of_policy(&along, policy, 5)));
    [
        Host::new(0, &back, short()),
        Host::new(0, &through, short()).through(true),
        Host::new(0, &no_images()[2], short()),
        Host::new(0, &back, short()).through(true),
    ]
}

/// Each run in a process and a folder of its own; gives how many there were.
pub fn all(rpj: Program) -> Result<usize, String> {
    let hosts = [runs(), old_images(), through(), refused_images(), refused_journals()].concat();
    compared(rpj, hosts, false)
}

/// As many as there are, each against the second program's; all together must be all forms, as streams or not.
pub fn compared(rpj: Program, hosts: Vec<Host>, streams: bool) -> Result<usize, String> {
    let mut tally = HostTally::new(streams);
    for (i, host) in hosts.iter().enumerate() {
        let ours = programs::host(rpj, host)?;
        if let Some(text) = difference::of_left(&ours, &host.expected()) {
            return Err(format!("difference: rpj, run {i}, {host}: {text}"));
        }
        tally.note(host, &ours);
    }
    match &tally.missing()[..] {
        [] => Ok(hosts.len()),
        missing => Err(missing.join("\n")),
    }
}

//! Images and machines for open, load and save.

use std::ops::Range;

use second::gen::deep;
use second::journal::answer_bytes;
use second::rng::Rng;
use second::{damage, fresh_with, run_journal, step, Policy, State};
use second::{IMAGE_BYTES, IMAGE_HEADER, OLD_BYTES, STATE_BYTES};

use crate::journals::Journal;
use crate::plan::policy;
use crate::task::{Item, Task};
use crate::versions::Version;

/// Marks in other letters, another order and of another file.
const MARKS: [&[u8; 3]; 10] =
    [b"rps", b"rPS", b"RpS", b"RPs", b"RSP", b"PRS", b"SPR", b"RPJ", b"PS\x01", b"\0\0\0"];

/// Both bytes wrong, the low one alone right, the high one alone, the two the other way round.
const VERSIONS: [u16; 12] =
    [0, 3, 255, 256, 257, 258, 512, 513, 514, 1 + 256 * 255, 2 + 256 * 255, 65_535];

/// Lengths of images and buffers: none to a few bytes, all around the right ones, and far ones
/// that agree with these in some of their bits.
pub const NEAR: [Range<usize>; 2] = [0..13, 4_700..4_801];
pub const FAR: [usize; 14] = [
    256,
    OLD_BYTES - 4096,
    IMAGE_BYTES - 4096,
    IMAGE_BYTES - 256,
    OLD_BYTES + 256,
    IMAGE_BYTES + 256,
    OLD_BYTES + 4096,
    IMAGE_BYTES + 4096,
    2 * OLD_BYTES,
    2 * IMAGE_BYTES,
    32_768,
    OLD_BYTES + 32_768,
    IMAGE_BYTES + 32_768,
    65_535,
];

/// Where runs of every profile lead, halfway and at the end, under both policies by turns.
pub fn led_to(journals: &[Journal]) -> Vec<State> {
    let mut states: Vec<State> = Policy::BOTH.map(fresh_with).into();
    for Journal { bytes, seed, .. } in journals.iter().filter(|j| j.seed % 4 == 1) {
        for length in [bytes.len() / 2, bytes.len()] {
            let mut state = fresh_with(policy(*seed as usize / 4));
            let part = &bytes[..length];
            if run_journal(&mut state, part, &mut vec![0; answer_bytes(part)]).is_ok() {
                states.push(state);
            }
        }
    }
    states
}

/// So many states of each policy one after the other, first of write-back.
pub const IN_A_ROW: usize = 12;

/// States along accepted runs, with much in use, under both policies by turns.
pub fn along() -> Vec<State> {
    let mut states = Vec::new();
    for seed in 0..4 {
        let mut state = fresh_with(policy(seed as usize));
        for (i, record) in deep::records(seed + 3000, 900).iter().enumerate() {
            step(&mut state, record);
            if i % (900 / IN_A_ROW) == 900 / IN_A_ROW - 1 {
                states.push(state.clone());
            }
        }
    }
    states
}

/// Images of states that runs led to, and of damaged ones.
pub fn whole(journals: &[Journal]) -> Vec<Item> {
    let mut plan = Plan::new();
    plan.whole(led_to(journals));
    plan.broken(12, 150);
    plan.items
}

/// Images with other headers, of other lengths, and with one byte changed.
pub fn changed() -> Vec<Item> {
    let mut plan = Plan::new();
    plan.headers();
    plan.lengths();
    plan.places();
    plan.items
}

/// A few of each form.
pub fn few() -> Vec<Item> {
    let mut plan = Plan::new();
    plan.whole(plan.run[3..4].to_vec());
    plan.broken(1, 1);
    plan.save("lengths", 0, plan.run[7].to_bytes(), IMAGE_BYTES + 1);
    plan.items
}

pub struct Plan {
    run: Vec<State>,
    damaged: Vec<State>,
    rng: Rng,
    items: Vec<Item>,
}

impl Plan {
    pub fn new() -> Plan {
        let damaged = (0..8).flat_map(|seed| damage::states(seed + 500, 8)).collect();
        Plan { run: along(), damaged, rng: Rng::new(0x69_6D61_6765), items: Vec::new() }
    }

    fn noise(&mut self, length: usize) -> Vec<u8> {
        (0..length).map(|_| self.rng.byte()).collect()
    }

    /// A machine to put an image over: fresh, of a run, damaged, or any bytes at all.
    pub fn receiver(&mut self) -> Vec<u8> {
        match self.rng.below(5) {
            0 => fresh_with(policy(self.rng.below(2))).to_bytes(),
            1 => self.noise(STATE_BYTES),
            2 => self.damaged[self.rng.below(self.damaged.len())].to_bytes(),
            _ => self.run[self.rng.below(self.run.len())].to_bytes(),
        }
    }

    /// A state that is valid or one that mostly is not.
    fn state(&mut self, valid: bool) -> State {
        let from = if valid { &self.run } else { &self.damaged };
        from[self.rng.below(from.len())].clone()
    }

    /// Opened over one machine and loaded over another.
    fn take(&mut self, profile: &'static str, seed: usize, image: Vec<u8>) {
        let machine = self.receiver();
        self.put(profile, seed, Task::Open { machine, image: image.clone() });
        let machine = self.receiver();
        self.put(profile, seed, Task::Load { machine, image });
    }

    /// Saved into a buffer that holds noise.
    fn save(&mut self, profile: &'static str, seed: usize, machine: Vec<u8>, room: usize) {
        let buffer = self.noise(room);
        self.put(profile, seed, Task::Save { machine, buffer });
    }

    fn put(&mut self, profile: &'static str, seed: usize, task: Task) {
        self.items.push(Item { profile, seed: seed as u64, task });
    }

    fn whole(&mut self, states: Vec<State>) {
        for (i, state) in states.iter().enumerate() {
            for version in Version::BOTH {
                self.take("whole", i, version.image_of(state));
            }
            self.save("whole", i, state.to_bytes(), IMAGE_BYTES);
        }
    }

    /// Damaged by aim at each rule and at random; every third as version 1 too.
    fn broken(&mut self, seeds: u64, each: usize) {
        for seed in 0..seeds {
            for (i, state) in damage::states(seed + 600, each).iter().enumerate() {
                self.take("broken", seed as usize, Version::Two.image_of(state));
                self.save("broken", seed as usize, state.to_bytes(), IMAGE_BYTES);
                if i % 3 == 0 {
                    self.take("broken", seed as usize, Version::One.image_of(state));
                }
            }
        }
    }

    /// Of images of both versions.
    fn headers(&mut self) {
        for version in Version::BOTH {
            for (i, header) in other_headers(version.header()).into_iter().enumerate() {
                let mut image = version.image_of(&self.state(i % 2 == 0));
                image[..header.len()].copy_from_slice(&header);
                self.take("headers", i, image);
            }
        }
    }

    /// Cut short or with more behind it, the header of either version and right or not; and buffers of these lengths.
    fn lengths(&mut self) {
        for length in NEAR.into_iter().flatten().chain(FAR) {
            for (i, version) in (0..4).flat_map(|i| Version::BOTH.map(|version| (i, version))) {
                let mut image = version.image_of(&self.state(i % 2 == 0));
                image[length % IMAGE_HEADER.len()] ^= (i / 2) as u8;
                let more = self.noise(length.saturating_sub(image.len()));
                image.extend(more);
                image.truncate(length);
                self.take("lengths", length, image);
            }
            let fresh = Policy::BOTH.map(fresh_with).into_iter();
            for state in fresh.chain([true, false].map(|valid| self.state(valid))) {
                self.save("lengths", length, state.to_bytes(), length);
            }
        }
    }

    /// Every byte alone changed, by one bit, to 2 and to any number: of an image, over the machine whose image it was, and of a
    /// machine that is saved. Of version 1 by one bit.
    fn places(&mut self) {
        for at in 0..IMAGE_BYTES {
            let state = self.run[at % self.run.len()].clone();
            let image = Version::Two.image_of(&state);
            let any = self.rng.byte();
            let others = [image[at] ^ 1, 2, any].into_iter().filter(|other| *other != image[at]);
            for (i, other) in others.enumerate() {
                // the rest once: open judges nothing, and save judges as load does
                self.place(&state, &image, at, other, i == 0);
                if i == 0 && at >= IMAGE_HEADER.len() {
                    let machine = with(&image, at, other)[IMAGE_HEADER.len()..].to_vec();
                    self.save("places", at, machine, IMAGE_BYTES);
                }
            }
        }
        for at in 0..OLD_BYTES {
            let state = self.run[at % self.run.len()].clone();
            let image = Version::One.image_of(&state);
            self.place(&state, &image, at, image[at] ^ 1 << (at % 8), true);
        }
        self.policies();
    }

    /// Loaded, and perhaps opened.
    fn place(&mut self, state: &State, image: &[u8], at: usize, byte: u8, opened: bool) {
        let (machine, image) = (state.to_bytes(), with(image, at, byte));
        if opened {
            let (machine, image) = (machine.clone(), image.clone());
            self.put("places", at, Task::Open { machine, image });
        }
        self.put("places", at, Task::Load { machine, image });
    }

    /// Each state with another policy: as one of the other, valid or not, or with none.
    fn policies(&mut self) {
        for (i, state) in self.run.clone().iter().enumerate() {
            let image = Version::Two.image_of(state);
            for byte in [0, 1, 2, 3, 128, 255] {
                self.place(state, &image, OLD_BYTES, byte, true);
                let machine = with(&image, OLD_BYTES, byte)[IMAGE_HEADER.len()..].to_vec();
                self.save("policies", i, machine, IMAGE_BYTES);
            }
        }
    }
}

fn with(image: &[u8], at: usize, byte: u8) -> Vec<u8> {
    let mut image = image.to_vec();
    image[at] = byte;
    image
}

/// Each byte alone, with every other value; marks and versions as a whole.
pub fn other_headers(right: [u8; 5]) -> Vec<[u8; 5]> {
    let mut others = Vec::new();
    for at in 0..right.len() {
        for byte in (0..=255).filter(|byte| *byte != right[at]) {
            let mut header = right;
            header[at] = byte;
            others.push(header);
        }
    }
    let [r, p, s, low, high] = right;
    others.extend(MARKS.map(|[r, p, s]| [*r, *p, *s, low, high]));
    others.extend(VERSIONS.map(u16::to_le_bytes).map(|[low, high]| [r, p, s, low, high]));
    others
}

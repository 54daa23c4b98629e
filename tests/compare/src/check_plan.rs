//! Machines that are checked, and images whose reports are asked for.

use second::damage::{at_places, in_pairs};
use second::rng::Rng;
use second::{check, fresh_with, Policy, State, IMAGE_BYTES, IMAGE_HEADER, STATE_BYTES};

use crate::images::{along, other_headers, FAR, NEAR};
use crate::plan;
use crate::task::{Item, Task};
use crate::versions::Version;

/// Machines of runs damaged by aim and at random, as elsewhere in the comparison.
const DAMAGED: (u64, usize) = (40, 250);
const STRUCK: (u64, usize) = (20, 250);

/// So often each place is aimed at, and so many states break each pair of rules and no other.
const AIMED: u64 = 4;
const PAIRED: usize = 30;

/// Bytes of noise below these, so that some numbers are in their ranges.
const BELOW: [usize; 6] = [2, 3, 6, 17, 66, 256];
const NOISES: usize = 60;

/// So much room has every text.
const ENOUGH: usize = 256;

struct Plan {
    rng: Rng,
    items: Vec<Item>,
}

/// Damaged by aim and at random, every fourth as version 1.
pub fn damaged() -> Vec<Item> {
    let struck = plan::struck(STRUCK.0, STRUCK.1);
    let judged = plan::damaged(DAMAGED.0, DAMAGED.1).into_iter().chain(struck);
    let mut plan = Plan::new();
    for (i, Item { seed, task, .. }) in judged.enumerate() {
        let Task::Judge { machine, .. } = task else { continue };
        plan.report("damaged", seed, version(i % 4 != 3), &State::from_bytes(&machine));
        if i % 9 == 0 {
            plan.check("damaged", seed, machine);
        }
    }
    plan.items
}

/// Damaged at each place and in each pair of rules, and anything at all.
pub fn aimed() -> Vec<Item> {
    let mut plan = Plan::new();
    for seed in 0..AIMED {
        for (i, (_, state)) in at_places(seed).into_iter().enumerate() {
            plan.report("places", seed, version((i + seed as usize) % 4 != 3), &state);
            if seed == 0 {
                plan.check("places", seed, state.to_bytes());
            }
        }
    }
    for (i, (_, state)) in in_pairs(0, PAIRED).into_iter().enumerate() {
        plan.report("pairs", i as u64, version(i % 8 != 7), &state);
        if i % 3 == 0 {
            plan.check("pairs", i as u64, state.to_bytes());
        }
    }
    plan.noise();
    plan.items
}

/// Images with other headers and of other lengths, and small buffers.
pub fn others() -> Vec<Item> {
    let mut plan = Plan::new();
    plan.valid();
    plan.headers();
    plan.lengths();
    plan.rooms();
    plan.items
}

/// A few of each form.
pub fn few() -> Vec<Item> {
    let mut plan = Plan::new();
    let damaged = in_pairs(7, 1);
    plan.check("few", 0, along()[3].to_bytes());
    for (i, (_, state)) in damaged.iter().step_by(9).enumerate() {
        plan.check("few", i as u64, state.to_bytes());
        plan.report("few", i as u64, version(i % 2 == 0), state);
    }
    let image = Version::Two.image_of(&damaged[0].1);
    plan.put("few", 20, image.clone(), 100);
    plan.put("few", 21, image[1..].to_vec(), 20);
    plan.items
}

fn version(two: bool) -> Version {
    if two {
        Version::Two
    } else {
        Version::One
    }
}

impl Plan {
    fn new() -> Plan {
        Plan { rng: Rng::new(0x63_6865_636B), items: Vec::new() }
    }

    fn check(&mut self, profile: &'static str, seed: u64, machine: Vec<u8>) {
        self.items.push(Item { profile, seed, task: Task::Check { machine } });
    }

    /// Into a buffer with something in it.
    fn put(&mut self, profile: &'static str, seed: u64, image: Vec<u8>, room: usize) {
        let buffer = (0..room).map(|_| self.rng.byte()).collect();
        self.items.push(Item { profile, seed, task: Task::Report { image, buffer } });
    }

    /// With room for the text, and mostly for more.
    fn report(&mut self, profile: &'static str, seed: u64, version: Version, state: &State) {
        let image = version.image_of(state);
        let room = match self.rng.below(4) {
            0 => check(&image).text.len() + self.rng.below(3),
            _ => ENOUGH,
        };
        self.put(profile, seed, image, room);
    }

    /// Bytes of every sort: each number everywhere, and noise.
    fn noise(&mut self) {
        let same = (0..=255).map(|byte| vec![byte; STATE_BYTES]).collect::<Vec<_>>();
        let noises = BELOW.into_iter().flat_map(|below| [below; NOISES]).collect::<Vec<_>>();
        let mut machines = same;
        for below in noises {
            machines.push((0..STATE_BYTES).map(|_| self.rng.below(below) as u8).collect());
        }
        for (i, machine) in machines.into_iter().enumerate() {
            let state = State::from_bytes(&machine);
            self.report("noise", i as u64, version(i % 3 != 2), &state);
            if i % 4 == 3 {
                self.check("noise", i as u64, machine);
            }
        }
    }

    /// States that are valid, and with another policy.
    fn valid(&mut self) {
        let states = Policy::BOTH.map(fresh_with).into_iter().chain(along());
        for (i, state) in states.enumerate() {
            for version in Version::BOTH {
                self.report("valid", i as u64, version, &state);
            }
            self.check("valid", i as u64, state.to_bytes());
            for byte in [0, 1, 2, 255] {
                let state = State { policy: Policy::from_byte(byte), ..state.clone() };
                for version in Version::BOTH {
                    self.report("policies", i as u64, version, &state);
                }
            }
        }
    }

    /// Of both versions, of states that are valid or not.
    fn headers(&mut self) {
        let states = [along()[5].clone(), State { free: 1, ..along()[5].clone() }];
        for version in Version::BOTH {
            for (i, header) in other_headers(version.header()).into_iter().enumerate() {
                let mut image = version.image_of(&states[i % 2]);
                image[..header.len()].copy_from_slice(&header);
                self.put("headers", i as u64, image, 8 + i % 8);
            }
        }
    }

    /// Cut short or with more behind it, of both versions.
    fn lengths(&mut self) {
        let states = [along()[7].clone(), State { active: 9, ..along()[7].clone() }];
        for length in NEAR.into_iter().flatten().chain(FAR) {
            for (version, state) in Version::BOTH.into_iter().flat_map(|v| [(v, 0), (v, 1)]) {
                let mut image = version.image_of(&states[state]);
                image.resize(length, self.rng.byte());
                self.put("lengths", length as u64, image, ENOUGH);
            }
        }
    }

    /// Every room that cuts a text, and some that do not.
    fn rooms(&mut self) {
        let all = Version::Two.image_of(&State::from_bytes(&[255; STATE_BYTES]));
        let valid = Version::One.image_of(&along()[9]);
        let header = IMAGE_HEADER.to_vec();
        for image in [all, valid, header] {
            let text = check(&image).text.len();
            for room in (0..=text + 2).chain([IMAGE_BYTES, 65_535]) {
                self.put("rooms", room as u64, image.clone(), room);
            }
        }
    }
}

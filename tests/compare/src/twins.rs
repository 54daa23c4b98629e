//! Twins: two journals whose open records are the same for one guest, V, and the machines that they start from, which are the same
//! with V hidden.

use second::gen::{deep, near, noise};
use second::rng::Rng;
use second::secrecy::{records, Told};
use second::step::judge;
use second::{fresh_with, GuestId, Policy, State, HEADER};

use crate::blind::{self, Records};
use crate::hiding::Hiding;
use crate::task::On;
use crate::{crowd, declined, keeper};

#[derive(Clone)]
pub struct Twins {
    pub profile: &'static str,
    pub seed: u64,
    pub v: GuestId,
    pub on: [On; 2],
    pub journals: [Vec<u8>; 2],
}

/// Profiles and how many twins each has.
pub const PROFILES: [(&str, u64); 8] = [
    ("keeper", 240),
    ("fill", 12),
    ("crowd", 40),
    ("deep", 24),
    ("near", 36),
    ("blind", 24),
    ("declined", 12),
    ("noise", 12),
];

/// The longest of their journals that is not made from another one.
const RECORDS: usize = 280;
/// A run whose first half leads to the start.
const TWICE: usize = 460;

/// What twins start from.
#[derive(Clone, Copy, PartialEq)]
enum From {
    Fresh,
    /// A machine that a run led to.
    One,
    /// Two machines that twins led to.
    Two,
}

pub fn all() -> Vec<Twins> {
    let seeds = |(profile, count): (&'static str, u64)| (0..count).map(move |s| (profile, s));
    let all = PROFILES.into_iter().flat_map(seeds);
    all.filter_map(|(profile, seed)| twins(profile, seed)).collect()
}

fn base(profile: &str, v: GuestId, seed: u64, count: usize) -> Records {
    let seed = seed + 7000;
    match profile {
        "keeper" => keeper::records(v, seed, count),
        "fill" => blind::fill(seed),
        "crowd" => crowd::records(seed, count),
        "deep" => deep::records(seed, count),
        "near" => near::records(seed, count),
        "blind" => blind::scripts(seed, count),
        "declined" => declined::scripts(seed, count),
        _ => whole(&noise::bytes(seed, count)),
    }
}

fn whole(bytes: &[u8]) -> Records {
    bytes.chunks_exact(8).filter_map(|record| record.try_into().ok()).collect()
}

/// None where nothing hidden and no value is different.
pub fn twins(profile: &'static str, seed: u64) -> Option<Twins> {
    let mut rng = Rng::new(seed ^ 0x0074_7769_6E73 ^ (profile.len() as u64) << 40);
    let from = [From::Fresh, From::Fresh, From::One, From::Two][rng.below(4)];
    let from = if (profile, from) == ("fill", From::Fresh) { From::One } else { from };
    let (policy, v) = (Policy::BOTH[rng.below(2)], GuestId::new(rng.below(4) as u8)?);
    let count = if from == From::Fresh { RECORDS } else { TWICE };
    let base = base(profile, v, seed, count);
    let v = if profile != "keeper" && seed % 2 == 1 { busiest(&base) } else { v };
    let (first, rest) = base.split_at(base.len() - base.len().min(RECORDS));
    let states = [fresh_with(policy), fresh_with(policy)];
    let mut hiding = Hiding { v, states, made: Vec::new(), rng: &mut rng };
    match from {
        From::Two => hiding.run(first),
        _ => hiding.states.iter_mut().for_each(|state| through(state, first)),
    }
    let on = hiding.states.clone().map(|state| match from {
        From::Fresh => On::Fresh(policy),
        _ => On::Machine(state.to_bytes()),
    });
    hiding.made.clear();
    hiding.run(rest);
    let journals = [rest, &hiding.made].map(journal);
    let twins = Twins { profile, seed, v, on, journals };
    twins.differ().then_some(twins)
}

fn through(state: &mut State, records: &[[u8; 8]]) {
    records.iter().for_each(|record| {
        judge(state, record);
    });
}

pub fn journal(records: &[[u8; 8]]) -> Vec<u8> {
    [&HEADER, &records.concat()[..]].concat()
}

/// The guest that is active for the most records.
fn busiest(base: &[[u8; 8]]) -> GuestId {
    let mut turns = [0; GuestId::COUNT];
    let mut state = fresh_with(Policy::WriteBack);
    for record in base {
        turns[state.active as usize] += 1;
        judge(&mut state, record);
    }
    GuestId::all().max_by_key(|guest| turns[guest.index()]).expect("there are some")
}

impl Twins {
    fn differ(&self) -> bool {
        let [one, other] = self.states();
        self.journals[0] != self.journals[1] || one != other
    }

    pub fn states(&self) -> [State; 2] {
        [self.on[0].state(), self.on[1].state()]
    }

    /// The active guest at the start.
    pub fn active(&self) -> u8 {
        self.on[0].state().active
    }

    /// Whether these are all bytes of both journals.
    pub fn is_end(&self, bytes: [usize; 2]) -> bool {
        bytes == [0, 1].map(|i| self.journals[i].len())
    }

    /// What the second program does with both, and where they lead.
    pub fn walked(&self) -> [(Vec<Told>, State); 2] {
        let mut states = self.states();
        [0, 1].map(|i| {
            let walked = second::secrecy::walk(self.v, &mut states[i], records(&self.journals[i]));
            (walked, states[i].clone())
        })
    }
}

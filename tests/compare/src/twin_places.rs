//! Matching places of twins, after so many told records in both: what ours gave up to there on both, one against the other.

use second::bytes::OFFSETS;
use second::rng::Rng;
use second::secrecy::{hide_bytes, records, told_form, Told};
use second::{GuestId, HEADER, STATE_BYTES};

use crate::difference::place;
use crate::task::{Item, Task, VERDICT};
use crate::twins::Twins;

/// Cuts of twins, beside their ends.
const CUTS: usize = 4;

/// How many bytes of each journal come before the place.
pub type Place = [usize; 2];

/// A few places and the end. Hidden records behind a told one belong to either side of a cut.
pub fn places(twins: &Twins, walked: [&[Told]; 2]) -> Vec<Place> {
    let mut rng = Rng::new(twins.seed ^ 0x6375_7473);
    let ends = [0, 1].map(|i| twins.journals[i].len());
    let records = ends.map(|end| (end - HEADER.len()) / 8);
    let told = walked[0].len().min(walked[1].len());
    let mut cut = |_| {
        let k = rng.below(told + 1);
        [0, 1].map(|i| {
            let least = if k == 0 { 0 } else { walked[i][k - 1].at + 1 };
            let most = walked[i].get(k).map_or(records[i], |next| next.at);
            HEADER.len() + 8 * (least + rng.below(most - least + 1))
        })
    };
    (0..CUTS).map(&mut cut).collect::<Vec<Place>>().into_iter().chain([ends]).collect()
}

/// The beginnings of both journals up to a place.
pub fn items(twins: &Twins, place: Place) -> [Item; 2] {
    let Twins { profile, seed, on, journals, .. } = twins;
    [0, 1].map(|i| {
        let journal = journals[i][..place[i]].to_vec();
        let buffer = vec![0xA5; journal.len() - HEADER.len() + *seed as usize % 3];
        let task = Task::Run { on: on[i].clone(), journal, buffer };
        Item { profile, seed: *seed, task }
    })
}

/// What ours gave on both.
pub struct Both {
    pub v: GuestId,
    /// The active guest at the start.
    pub active: u8,
    pub journals: [Vec<u8>; 2],
    pub results: [Vec<u8>; 2],
}

/// A record with its answer.
pub struct Given<'a> {
    pub record: &'a [u8],
    pub answer: &'a [u8],
    pub v_acts: bool,
    /// None of a hidden one.
    pub told: Option<Vec<u8>>,
}

const SWITCH: u8 = 8;

impl Both {
    pub fn of(twins: &Twins, place: Place, results: [Vec<u8>; 2]) -> Both {
        let journals = [0, 1].map(|i| twins.journals[i][..place[i]].to_vec());
        Both { v: twins.v, active: twins.active(), journals, results }
    }

    pub fn machine(&self, i: usize) -> &[u8] {
        &self.results[i][self.results[i].len() - STATE_BYTES..]
    }

    /// All records of one journal; who is active is what the answers say.
    pub fn given(&self, i: usize) -> Vec<Given<'_>> {
        let mut active = self.active;
        let answers = self.results[i][VERDICT..].chunks(8);
        let given = records(&self.journals[i]).zip(answers).map(|(record, answer)| {
            let v_acts = active == self.v.byte();
            if (record[0], answer[0]) == (SWITCH, 0) {
                active = record[1];
            }
            Given { record, answer, v_acts, told: told_form(v_acts, record) }
        });
        given.collect()
    }

    pub fn told(&self, i: usize) -> Vec<Given<'_>> {
        self.given(i).into_iter().filter(|given| given.told.is_some()).collect()
    }

    /// What is seen to be different; None where nothing is.
    pub fn wrong(&self) -> Option<String> {
        let run = self.results.iter().all(|result| result[0] == 0);
        if !run {
            return Some("a journal was refused".into());
        }
        let [one, other] = [self.told(0), self.told(1)];
        for (k, (one, other)) in one.iter().zip(&other).enumerate() {
            if let Some(what) = one.other(other) {
                return Some(format!("told record {}: {what}", k + 1));
            }
        }
        if one.len() != other.len() {
            return Some(format!("{} told records and {}", one.len(), other.len()));
        }
        let [one, other] = [0, 1].map(|i| hide_bytes(self.v, self.machine(i)));
        let at = (0..STATE_BYTES).find(|at| one[*at] != other[*at])?;
        Some(format!("{}: {} and {}", place(at), one[at], other[at]))
    }

    /// Whether a byte of a result counts: it is seen.
    pub fn counts(&self, i: usize, at: usize) -> bool {
        let (given, end) = (self.given(i), self.results[i].len() - STATE_BYTES);
        match at {
            0 => true,
            1..VERDICT => false,
            _ if at >= end => self.machine_counts(self.machine(i), at - end),
            _ => given.get((at - VERDICT) / 8).is_some_and(|given| {
                given.told.is_some() && ((at - VERDICT) % 8 < 4 || !given.v_acts)
            }),
        }
    }

    /// By the places of docs/STATE.md.
    fn machine_counts(&self, machine: &[u8], at: usize) -> bool {
        let (slots, pages, memory, lines) = (OFFSETS[15], OFFSETS[16], OFFSETS[17], OFFSETS[18]);
        let is_vs =
            |page: usize| machine.get(page).is_some_and(|owner| *owner == 2 + self.v.byte());
        if at == slots + 7 || at == pages + 7 {
            false
        } else if (memory..lines).contains(&at) {
            !is_vs((at - memory) / 4)
        } else if (lines..OFFSETS[19]).contains(&at) {
            let page = machine[OFFSETS[13] + (at - lines) / 4] as usize;
            page == 0 || !is_vs(page - 1)
        } else {
            true
        }
    }
}

impl Given<'_> {
    /// What is seen to be different in another.
    fn other(&self, other: &Given) -> Option<String> {
        let value = |given: &Given| if given.v_acts { vec![] } else { given.answer[4..].to_vec() };
        let number = |given: &Given| given.answer[..4].to_vec();
        let (one, two) = match () {
            _ if self.told != other.told || self.v_acts != other.v_acts => {
                return Some(format!("told forms {:?} and {:?}", self.told, other.told));
            }
            _ if number(self) != number(other) => (number(self), number(other)),
            _ => (value(self), value(other)),
        };
        (one != two).then(|| format!("{:02X?}: answers {one:?} and {two:?}", self.record))
    }
}

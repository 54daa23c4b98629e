//! A run, a save, a load over another machine and a run, each on what ours gave before, are one run; and what was loaded is saved
//! to the same bytes, under either policy. Some images of write-back go over version 1.

use second::gen::{deep, near};
use second::{Policy, HEADER, IMAGE_BYTES, STATE_BYTES};

use crate::programs::{self, Program};
use crate::task::{Item, On, Task, NUMBER, VERDICT};
use crate::versions::older;
use crate::{images, plan};

const RECORDS: usize = 600;
/// How many records are run before the save.
const CUTS: [usize; 6] = [0, 1, 100, 333, 599, RECORDS];

/// What ours gave on one trip.
pub struct Trip {
    /// Of the first run, of the rest, of one run.
    answers: [Vec<u8>; 3],
    /// Where the first run led, what was loaded, where the rest led, where one run led.
    machines: [Vec<u8>; 4],
    /// What was saved, before the load and after it.
    images: [Vec<u8>; 2],
}

impl Trip {
    pub fn wrong(&self) -> Option<&'static str> {
        let [first, rest, whole] = &self.answers;
        let [before, loaded, after, end] = &self.machines;
        let [saved, again] = &self.images;
        let wrong = [
            (loaded != before, "what was saved is loaded to another state"),
            (again != saved, "what was loaded is saved to other bytes"),
            ([&first[..], rest].concat() != *whole, "the answers are not those of one run"),
            (after != end, "the state is not that of one run"),
        ];
        wrong.into_iter().find(|(wrong, _)| *wrong).map(|(_, why)| why)
    }

    /// Every byte that counts.
    pub fn byte(&mut self, at: usize) -> Option<&mut u8> {
        let pieces = self.answers.iter_mut().chain(&mut self.machines).chain(&mut self.images);
        pieces.flatten().nth(at)
    }
}

/// How many there were.
pub fn all(probe: Program) -> Result<usize, String> {
    let pairs = (0..8).flat_map(|seed| CUTS.map(|cut| (seed, cut))).collect();
    let trips = trips(probe, pairs)?;
    for (i, trip) in trips.iter().enumerate() {
        if let Some(why) = trip.wrong() {
            return Err(format!("difference: trip {i}: {why}"));
        }
    }
    Ok(trips.len())
}

/// By the seed of the run and how many of its records come before the save.
pub fn trips(probe: Program, pairs: Vec<(u64, usize)>) -> Result<Vec<Trip>, String> {
    let run = |(seed, _): &(u64, usize)| match seed % 2 {
        0 => deep::records(seed + 4000, RECORDS),
        _ => near::records(seed + 4000, RECORDS),
    };
    let runs: Vec<Vec<[u8; 8]>> = pairs.iter().map(run).collect();
    let parts = runs.iter().zip(&pairs).map(|(records, (_, cut))| records.split_at(*cut));
    let fresh = || pairs.iter().map(|(seed, _)| On::Fresh(policy(*seed)));
    let first = parts.clone().zip(fresh()).map(|((first, _), on)| journal(on, first));
    let first = results(probe, first)?;
    let saved = saved(probe, first.iter().map(|ours| machine(ours)))?;
    let kept = saved.iter().zip(&pairs).map(|(image, (seed, _))| match is_old(*seed) {
        true => older(image),
        false => image.clone(),
    });
    let loaded = loaded(probe, kept)?;
    let again = self::saved(probe, loaded.iter().cloned())?;
    let rest =
        parts.zip(&loaded).map(|((_, rest), loaded)| journal(On::Machine(loaded.clone()), rest));
    let rest = results(probe, rest)?;
    let whole = runs.iter().zip(fresh()).map(|(records, on)| journal(on, records));
    let whole = results(probe, whole)?;
    let trip = |i: usize| Trip {
        answers: [&first[i], &rest[i], &whole[i]].map(|ours| answers(ours)),
        machines: [&first[i], &loaded[i], &rest[i], &whole[i]].map(|ours| machine(ours)),
        images: [&saved[i], &again[i]].map(Vec::clone),
    };
    Ok((0..pairs.len()).map(trip).collect())
}

/// Seeds by turns, and of those that are write-back the later half over version 1.
fn policy(seed: u64) -> Policy {
    plan::policy(seed as usize / 2)
}

fn is_old(seed: u64) -> bool {
    seed >= 4 && policy(seed) == Policy::WriteBack
}

fn journal(on: On, records: &[[u8; 8]]) -> Task {
    let body = records.concat();
    let journal = [&HEADER, &body[..]].concat();
    Task::Run { on, journal, buffer: vec![0; body.len()] }
}

/// The machine, which every result ends with.
fn machine(ours: &[u8]) -> Vec<u8> {
    ours[ours.len() - STATE_BYTES..].to_vec()
}

fn answers(ours: &[u8]) -> Vec<u8> {
    ours[VERDICT..ours.len() - STATE_BYTES].to_vec()
}

fn saved(probe: Program, machines: impl Iterator<Item = Vec<u8>>) -> Result<Vec<Vec<u8>>, String> {
    let save = |machine| Task::Save { machine, buffer: vec![0; IMAGE_BYTES] };
    let results = results(probe, machines.map(save))?;
    Ok(results.iter().map(|ours| ours[NUMBER..NUMBER + IMAGE_BYTES].to_vec()).collect())
}

fn loaded(probe: Program, images: impl Iterator<Item = Vec<u8>>) -> Result<Vec<Vec<u8>>, String> {
    let mut plan = images::Plan::new();
    let load = |image| Task::Load { machine: plan.receiver(), image };
    let results = results(probe, images.map(load))?;
    Ok(results.iter().map(|ours| machine(ours)).collect())
}

fn results(probe: Program, tasks: impl Iterator<Item = Task>) -> Result<Vec<Vec<u8>>, String> {
    let items: Vec<Item> = tasks.map(|task| Item { profile: "trips", seed: 0, task }).collect();
    let mut results = Vec::new();
    programs::probe(probe, &items, |_, ours| {
        results.push(ours);
        Ok::<(), String>(())
    })?;
    Ok(results)
}

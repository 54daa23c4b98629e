//! All twins: the second program's runs one against the other, record by record, and ours at a few places and at the end.

use second::secrecy::{hide, open, seen};

use crate::programs::{self, Ask, Program};
use crate::task::Item;
use crate::twin_places::{items, places, Both, Place};
use crate::twin_tally::TwinTally;
use crate::twins::{self, Twins};
use crate::{against_second, Stop};

pub fn all(probe: Program, tally: &mut TwinTally) -> Result<(), String> {
    let twins = twins::all();
    let mut planned: Vec<(&Twins, Place)> = Vec::new();
    for twins in &twins {
        let places = by_second(twins, tally)?;
        planned.extend(places.into_iter().map(|place| (twins, place)));
    }
    let tasks = planned.iter().flat_map(|(twins, place)| items(twins, *place));
    let tasks: Vec<Item> = tasks.collect();
    let mut first = Vec::new();
    programs::probe(probe, &tasks, |i, ours| {
        against_second(probe, i, &tasks[i], &ours)?;
        if i % 2 == 0 {
            first = ours;
            return Ok(());
        }
        let (twins, place) = planned[i / 2];
        let results = [std::mem::take(&mut first), ours];
        compared(twins, place, results, tally).map_err(Stop::from)
    })?;
    Ok(())
}

/// What was given up to a place on both, one against the other.
pub fn compared(
    twins: &Twins,
    place: Place,
    results: [Vec<u8>; 2],
    tally: &mut TwinTally,
) -> Result<(), String> {
    let both = Both::of(twins, place, results);
    tally.note_place(&both, twins.is_end(place));
    let wrong = |what| Err(told(twins, &format!("after {place:?} bytes, {what}")));
    both.wrong().map_or(Ok(()), wrong)
}

fn told(Twins { profile, seed, v, .. }: &Twins, what: &str) -> String {
    format!("difference: twins, profile {profile}, seed {seed}, V is guest {}: {what}", v.byte())
}

/// The open records must be the same, all that is seen of both runs, and where they lead; gives places for ours.
pub fn by_second(twins: &Twins, tally: &mut TwinTally) -> Result<Vec<Place>, String> {
    let [(one, end), (other, other_end)] = twins.walked();
    let v = twins.v;
    let wrong = [
        (open(&one) != open(&other), "the open records are not the same"),
        (seen(v, &one) != seen(v, &other), "the second program: not the same is seen"),
        (hide(v, &end) != hide(v, &other_end), "the second program: the ends differ"),
    ];
    if let Some((_, why)) = wrong.into_iter().find(|(wrong, _)| *wrong) {
        return Err(told(twins, why));
    }
    tally.note_twins(twins, [&one, &other]);
    Ok(places(twins, [&one, &other]))
}

/// What is given at the ends of some twins.
pub fn at_end(ask: &mut Ask, twins: &Twins) -> Result<Both, String> {
    let ends = [0, 1].map(|i| twins.journals[i].len());
    let [one, other] = items(twins, ends);
    Ok(Both::of(twins, ends, [ask(&one.task)?, ask(&other.task)?]))
}

#[cfg(test)]
mod tests {
    use super::*;

    /// With the second program in place of ours.
    #[test]
    fn everything_is_met() {
        let mut tally = TwinTally::default();
        for twins in twins::all() {
            for place in by_second(&twins, &mut tally).unwrap() {
                let results = items(&twins, place).map(|item| item.task.expected());
                assert_eq!(compared(&twins, place, results, &mut tally), Ok(()));
            }
        }
        assert_eq!(tally.counts.missing(), Vec::<String>::new());
    }
}

//! Damages aimed at one place of one part of a rule (docs/RULES.md), so that it is the first that is broken.

use crate::broken::{first_broken, Judged, PLACES};
use crate::damage::{broken_alone, hits, pool};
use crate::rng::Rng;
use crate::rules::RULES;
use crate::state::State;

/// A place of a part of a rule, by their numbers.
#[derive(Clone, Copy, PartialEq, Eq, PartialOrd, Ord, Debug)]
pub struct Target {
    pub rule: usize,
    pub part: usize,
    pub place: usize,
}

/// Numbers that are as large as they can be in their bytes: free, memory and line of rule 10.
pub const UNBREAKABLE: [(usize, usize); 3] = [(10, 5), (10, 17), (10, 18)];

/// So often a damage is tried, and so often for one that breaks no other rule.
const TRIES: usize = 60;
const ALONE: usize = 24;

/// Every part that a state of bytes can break, with its number of places.
pub fn parts() -> Vec<(usize, usize, usize)> {
    let all = (1..=RULES).flat_map(|rule| {
        PLACES[rule - 1].iter().enumerate().map(move |(part, places)| (rule, part, *places))
    });
    all.filter(|(rule, part, _)| !UNBREAKABLE.contains(&(*rule, *part))).collect()
}

/// Every place of a small part; of a large one the first, the last and every 13th, so that each page and each address is among them.
pub fn targets() -> Vec<Target> {
    let of_part = |(rule, part, places): (usize, usize, usize)| {
        let step = if places > 64 { 13 } else { 1 };
        let all = (0..places).step_by(step).chain([places - 1]);
        let mut all: Vec<Target> = all.map(|place| Target { rule, part, place }).collect();
        all.dedup();
        all
    };
    parts().into_iter().flat_map(of_part).collect()
}

/// Which of its places a rule names.
pub fn named(state: &State, rule: usize) -> Option<Target> {
    match first_broken(state, rule as u8) {
        Judged::Broken(broken) => {
            let (part, place) = (broken.part as usize, broken.place.number() as usize);
            Some(Target { rule, part, place })
        }
        _ => None,
    }
}

/// A state that breaks the rule first at the place; by turns with no other rule broken, where that is found.
pub fn aimed_at(target: Target, from: &[State], rng: &mut Rng) -> Option<State> {
    let (mut found, alone) = (None, rng.percent(60));
    for i in 0..TRIES {
        let Some(mut state) = from.get(rng.below(from.len())).cloned() else { break };
        let Some(hit) = rng.pick(hits::of(target.rule, target.part)) else { break };
        let done = hit(&mut state, target, rng).is_some();
        if done && named(&state, target.rule) == Some(target) {
            if !alone || broken_alone(&state) == Some(target.rule - 1) {
                return Some(state);
            }
            found = found.or(Some(state));
        }
        if i >= ALONE && found.is_some() {
            break;
        }
    }
    found
}

/// A state for each target, the same for the same seed.
pub fn at_places(seed: u64) -> Vec<(Target, State)> {
    let mut rng = Rng::new(seed ^ 0x706C_6163_6573);
    let from = pool::states(&mut rng);
    let of = |target| Some((target, aimed_at(target, &from, &mut rng)?));
    targets().into_iter().filter_map(of).collect()
}

#[cfg(test)]
mod tests {
    use super::*;

    #[test]
    fn every_target_is_hit() {
        let states = at_places(3);
        let hit: Vec<Target> = states.iter().map(|(target, _)| *target).collect();
        let missed: Vec<Target> = targets().into_iter().filter(|t| !hit.contains(t)).collect();
        assert!(missed.is_empty(), "{missed:?}");
        for (target, state) in &states {
            assert_eq!(named(state, target.rule), Some(*target));
        }
    }

    /// Of the large parts each page and each address.
    #[test]
    fn targets_reach_everywhere() {
        for (rule, part, places) in parts() {
            let targets = targets().into_iter().filter(|t| (t.rule, t.part) == (rule, part));
            let all: Vec<usize> = targets.map(|target| target.place).collect();
            assert!(all.windows(2).all(|two| two[0] < two[1]), "rule {rule}, part {part}");
            assert_eq!((all[0], all[all.len() - 1]), (0, places - 1));
            for n in 0..places.min(64) {
                assert!(all.iter().any(|place| place % 64 == n) && places <= 4096);
                assert!(places <= 64 || all.iter().any(|place| place / 64 == n));
            }
        }
    }
}

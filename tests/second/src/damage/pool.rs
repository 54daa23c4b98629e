//! Valid states to be damaged, with much in use, and one pair of rules broken together in them.

use crate::damage::{go, AIMED};
use crate::gen::deep::Phase;
use crate::gen::driver::Driver;
use crate::rng::Rng;
use crate::rules::{rules, RULES};
use crate::state::{fresh_with, Policy, State};

/// What runs go through, so that pages are few, many, used up and given back.
const PHASES: [(Phase, usize); 6] = [
    (Phase::Build, 80),
    (Phase::Build, 120),
    (Phase::Work, 90),
    (Phase::Fill, 500),
    (Phase::Drain, 60),
    (Phase::Build, 150),
];

/// So many runs of each policy.
const RUNS: usize = 4;

/// So often a pair is tried.
const TRIES: usize = 4000;

/// The fresh machines, and where runs of both policies lead after each of their phases.
pub fn states(rng: &mut Rng) -> Vec<State> {
    let mut states: Vec<State> = Policy::BOTH.map(fresh_with).into();
    for policy in Policy::BOTH.into_iter().cycle().take(2 * RUNS) {
        let mut driver = Driver::started(policy, rng.draw(), usize::MAX);
        for (phase, records) in PHASES {
            go(&mut driver, phase, records);
            states.push(driver.state.clone());
        }
    }
    states
}

/// The rules that are broken, counted from 1.
pub fn broken(state: &State) -> Vec<usize> {
    let holds = rules(state);
    (1..=RULES).filter(|rule| !holds[rule - 1]).collect()
}

/// All pairs of rules, the lower one first.
pub fn pairs() -> impl Iterator<Item = [usize; 2]> {
    (1..=RULES).flat_map(|one| (one + 1..=RULES).map(move |other| [one, other]))
}

/// A state that breaks these two rules and no other.
pub fn both_broken(pair: [usize; 2], from: &[State], rng: &mut Rng) -> Option<State> {
    for _ in 0..TRIES {
        let mut state = from.get(rng.below(from.len())).cloned()?;
        let done = pair.map(|rule| {
            let damage = rng.pick(AIMED[rule - 1]);
            damage.and_then(|damage| damage(&mut state, rng))
        });
        if done.iter().all(Option::is_some) && broken(&state) == pair {
            return Some(state);
        }
    }
    None
}

/// So many states for each pair, the same for the same seed.
pub fn in_pairs(seed: u64, each: usize) -> Vec<([usize; 2], State)> {
    let mut rng = Rng::new(seed ^ 0x7061_6972_73);
    let from = states(&mut rng);
    let many = pairs().flat_map(|pair| std::iter::repeat_n(pair, each));
    many.filter_map(|pair| Some((pair, both_broken(pair, &from, &mut rng)?))).collect()
}

#[cfg(test)]
mod tests {
    use super::*;

    /// Each can be.
    #[test]
    fn every_pair_is_broken_by_itself() {
        let states = in_pairs(1, 2);
        let met: Vec<[usize; 2]> = states.iter().map(|(pair, _)| *pair).collect();
        let all: Vec<[usize; 2]> = pairs().flat_map(|pair| [pair, pair]).collect();
        assert_eq!(met, all);
        assert!(states.iter().all(|(pair, state)| broken(state) == pair));
    }

    #[test]
    fn what_is_damaged_was_valid() {
        let states = states(&mut Rng::new(4));
        assert!(states.iter().all(crate::valid));
        assert!(states.iter().any(|state| state.free == 0));
        for page in crate::Mach::all().filter(|page| !page.is_host()) {
            let data = states.iter().any(|state| state.page(page).is_data());
            assert!(data || page.byte() < 4, "{page:?}");
        }
    }
}

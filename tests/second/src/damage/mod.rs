//! Damaged states: states of generated runs with one, two or several fields changed.

mod aimed;
mod buffers;
mod hits;
mod hits_buffers;
mod hits_tables;
mod places;
mod policies;
mod pool;
mod tables;

use crate::bytes::OFFSETS;
use crate::gen::deep::{one, Phase};
use crate::gen::driver::Driver;
use crate::rng::Rng;
use crate::rules::{rules, RULES};
use crate::state::{Policy, State};

pub use aimed::{Damage, AIMED};
pub use places::{at_places, named, parts, targets, Target, UNBREAKABLE};
pub use pool::{broken, in_pairs, pairs};

/// How far runs go before a new one is begun.
const RUN_LENGTH: usize = 1500;

/// The only rule broken, 0 for rule 1, if exactly one is.
pub fn broken_alone(state: &State) -> Option<usize> {
    let holds = rules(state);
    let mut broken = (0..RULES).filter(|rule| !holds[*rule]);
    match (broken.next(), broken.next()) {
        (Some(rule), None) => Some(rule),
        _ => None,
    }
}

/// `count` damaged states of runs under both policies by turns, the same for the same seed.
pub fn states(seed: u64, count: usize) -> Vec<State> {
    let mut rng = Rng::new(seed ^ 0x6461_6D61_6765);
    let mut drivers = Policy::BOTH.map(|policy| Driver::started(policy, rng.draw(), RUN_LENGTH));
    (0..count)
        .map(|i| {
            let driver = &mut drivers[i / 2 % 2];
            advance(driver, &mut rng);
            if i % 2 == 0 {
                aim(driver, &mut rng, i / 2 % RULES)
            } else {
                scatter(&driver.state, &mut rng)
            }
        })
        .collect()
}

/// Goes on with the run for a while, or begins another of its policy.
fn advance(driver: &mut Driver, rng: &mut Rng) {
    if driver.records.len() + 200 > driver.limit {
        *driver = Driver::started(driver.state.policy, rng.draw(), RUN_LENGTH);
        go(driver, Phase::Build, 60);
    }
    let phase = rng.pick(&[Phase::Build, Phase::Work, Phase::Build, Phase::Drain]);
    go(driver, phase.unwrap_or(Phase::Build), 5 + rng.below(30));
}

fn go(driver: &mut Driver, phase: Phase, records: usize) {
    let end = driver.records.len() + records;
    while driver.goes_on() && driver.records.len() < end {
        one(driver, phase);
    }
}

/// Damage aimed at one rule, with others spared where that is found; now and then
/// together with more.
fn aim(driver: &mut Driver, rng: &mut Rng, rule: usize) -> State {
    let alone = rng.percent(75);
    for _ in 0..60 {
        let mut state = driver.state.clone();
        let Some(damage) = rng.pick(AIMED[rule]) else { break };
        if damage(&mut state, rng).is_some() && state != driver.state {
            if !alone {
                return maybe_more(state, rng);
            }
            if broken_alone(&state) == Some(rule) {
                return state;
            }
        }
        if rng.percent(30) {
            advance(driver, rng);
        }
    }
    scatter(&driver.state, rng)
}

fn maybe_more(state: State, rng: &mut Rng) -> State {
    if rng.percent(50) {
        scatter(&state, rng)
    } else {
        state
    }
}

/// One, two or several numbers changed, anywhere.
fn scatter(from: &State, rng: &mut Rng) -> State {
    let places = match rng.below(8) {
        0..=3 => 1,
        4 | 5 => 2,
        _ => 3 + rng.below(6),
    };
    let before = from.to_bytes();
    let mut bytes = before.clone();
    let mut changed = 0;
    while changed < places || bytes == before {
        change_one(&mut bytes, rng);
        changed += 1;
    }
    State::from_bytes(&bytes)
}

fn change_one(bytes: &mut [u8], rng: &mut Rng) {
    let field = rng.below(OFFSETS.len() - 1);
    let bytes = &mut bytes[OFFSETS[field]..OFFSETS[field + 1]];
    let used: Vec<usize> = (0..bytes.len()).filter(|i| bytes[*i] != 0).collect();
    let any = rng.below(bytes.len());
    let place = match rng.percent(60) {
        true => rng.pick(&used).unwrap_or(any),
        false => any,
    };
    bytes[place] = match rng.below(6) {
        0 => 0,
        1 => bytes[place].wrapping_add(1),
        2 => bytes[place].wrapping_sub(1),
        3 => rng.pick(&used).map_or(1, |other| bytes[other]),
        4 => rng.pick(&EDGES).unwrap_or(0),
        _ => rng.byte(),
    };
}

/// Last good and first bad numbers of every field.
const EDGES: [u8; 16] = [0, 1, 2, 3, 4, 5, 6, 7, 15, 16, 47, 48, 63, 64, 65, 255];

#[cfg(test)]
mod tests {
    use super::*;

    #[test]
    fn every_damage_is_met() {
        let mut rng = Rng::new(5);
        let mut met: Vec<Vec<bool>> = AIMED.iter().map(|list| vec![false; list.len()]).collect();
        let mut drivers = Policy::BOTH.map(|policy| Driver::started(policy, 6, 0));
        for i in 0..400 {
            let driver = &mut drivers[i % 2];
            advance(driver, &mut rng);
            for (rule, list) in AIMED.iter().enumerate() {
                for (i, damage) in list.iter().enumerate() {
                    let mut state = driver.state.clone();
                    let done = damage(&mut state, &mut rng).is_some();
                    met[rule][i] |= done && !rules(&state)[rule];
                }
            }
        }
        for (rule, list) in met.iter().enumerate() {
            assert!(list.iter().all(|met| *met), "rule {}: {list:?}", rule + 1);
        }
    }
}

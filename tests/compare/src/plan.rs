//! What is given to `probe`: journals with answer buffers and machines, and machines with records.

use second::gen::{deep, near};
use second::journal::answer_bytes;
use second::rng::Rng;
use second::{damage, fresh_with, step, Policy, State, HEADER};

use crate::journals::{journal, Journal};
use crate::task::{Item, On, Task};

/// A buffer of so many bytes with something in it.
fn buffer(size: usize) -> Vec<u8> {
    (0..size.min(65_535)).map(|i| (i * 37 + 165) as u8).collect()
}

/// By turns.
pub fn policy(turn: usize) -> Policy {
    Policy::BOTH[turn % 2]
}

/// Each journal on the fresh machine of both policies, one after the other, with room for its answers and up to nine bytes more.
pub fn runs(journals: &[Journal]) -> Vec<Item> {
    let item = |j: &Journal, policy| {
        let buffer = buffer(answer_bytes(&j.bytes) + j.seed as usize % 10);
        let task = Task::Run { on: On::Fresh(policy), journal: j.bytes.clone(), buffer };
        Item { profile: j.profile, seed: j.seed, task }
    };
    journals.iter().flat_map(|j| Policy::BOTH.map(|policy| item(j, policy))).collect()
}

/// Journals by turns, with the first seed of each: short ones, ones with another header, ones about as long as may be.
const ROOMED: [(&str, u64); 4] = [("near", 3), ("blind", 0), ("headers", 24), ("lengths", 56)];

/// Buffers that are too small or just large enough.
pub fn rooms() -> Vec<Item> {
    let pairs = ROOMED.into_iter().flat_map(|of| (0..24).map(move |i| (of, i)));
    let item = |((profile, first), i): ((&str, u64), u64)| {
        let journal = journal(profile, first + i % 8);
        let exact = answer_bytes(&journal);
        let size = match i % 6 {
            0 => exact.saturating_sub(1),
            1 => exact.saturating_sub(8),
            2 => 0,
            3 => exact / 2,
            4 => exact,
            _ => exact + 8,
        };
        let on = On::Fresh(policy(i as usize / 6));
        let task = Task::Run { on, journal, buffer: buffer(size) };
        Item { profile: "room", seed: first + i % 8, task }
    };
    pairs.map(item).collect()
}

/// A run cut in two: the second part on the machine that the first one leads to. Every third machine is damaged.
pub fn given(count: u64) -> Vec<Item> {
    let item = |seed: u64| {
        let records = match seed % 2 {
            0 => deep::records(seed + 1000, 900),
            _ => near::records(seed + 1000, 900),
        };
        let (first, rest) = records.split_at(600);
        let mut state = fresh_with(policy(seed as usize / 2));
        for record in first {
            step(&mut state, record);
        }
        if seed % 3 == 2 {
            state = damage::states(seed, 1 + seed as usize).remove(seed as usize);
        }
        let mut journal = [&HEADER, &rest.concat()[..]].concat();
        journal[0] ^= (seed % 9 == 8) as u8;
        let size = if seed % 12 == 11 { 0 } else { 8 * rest.len() + 3 };
        let on = On::Machine(state.to_bytes());
        let task = Task::Run { on, journal, buffer: buffer(size) };
        Item { profile: "given", seed, task }
    };
    (0..count).map(item).collect()
}

/// Every record of a few journals by itself, on the machine that those before it lead to, under one policy or the other.
pub fn walks(journals: &[Journal], profiles: &[(&str, u64)]) -> Vec<Item> {
    let mut items = Vec::new();
    let chosen = |j: &&Journal| profiles.contains(&(j.profile, j.seed));
    for (i, Journal { bytes, seed, .. }) in journals.iter().filter(chosen).enumerate() {
        let mut state = fresh_with(policy(i));
        for record in bytes[HEADER.len()..].chunks(8) {
            let task = Task::Judge { machine: state.to_bytes(), record: record.to_vec() };
            items.push(Item { profile: "walk", seed: *seed, task });
            step(&mut state, record);
        }
    }
    items
}

/// Machines of runs with one, two or several fields damaged, by aim and at random, each with a record.
pub fn damaged(seeds: u64, each: usize) -> Vec<Item> {
    let mut items = Vec::new();
    for seed in 0..seeds {
        let mut rng = Rng::new(seed ^ 0x006A_7564_6765);
        for state in damage::states(seed, each) {
            items.push(judged("damaged", seed, state.to_bytes(), &mut rng));
        }
    }
    items
}

/// Machines of runs with bytes changed anywhere, without regard to fields.
pub fn struck(seeds: u64, each: usize) -> Vec<Item> {
    let mut items = Vec::new();
    for seed in 0..seeds {
        let mut rng = Rng::new(seed ^ 0x7374_7275_636B);
        let mut state = fresh_with(policy(seed as usize));
        for record in deep::records(seed + 2000, each) {
            step(&mut state, &record);
            items.push(judged("struck", seed, strike(&state, &mut rng), &mut rng));
        }
    }
    items
}

/// One, two or several bytes; those that are not 0 are liked.
fn strike(state: &State, rng: &mut Rng) -> Vec<u8> {
    let mut bytes = state.to_bytes();
    let used: Vec<usize> = (0..bytes.len()).filter(|i| bytes[*i] != 0).collect();
    for _ in 0..[1, 1, 2, 5][rng.below(4)] {
        let any = rng.below(bytes.len());
        let place = if rng.percent(50) { rng.pick(&used).unwrap_or(any) } else { any };
        bytes[place] = match rng.below(4) {
            0 => bytes[place] ^ 1 << rng.below(8),
            1 => bytes[place].wrapping_add(64),
            2 => rng.below(8) as u8,
            _ => rng.byte(),
        };
    }
    bytes
}

fn judged(profile: &'static str, seed: u64, machine: Vec<u8>, rng: &mut Rng) -> Item {
    let record = match rng.below(9) {
        0 => vec![0; 8],
        1 => (0..rng.below(17)).map(|_| rng.byte()).collect(),
        2 => vec![rng.below(17) as u8; rng.below(17)],
        3 | 4 => vec![11 + rng.below(2) as u8, 0, 0, 0, 0, 0, 0, 0],
        5 => vec![8, rng.below(4) as u8, 0, 0, 0, 0, 0, 0],
        6 => call_of(&machine, rng),
        7 => vec![15, rng.below(5) as u8, 0, 0, 0, 0, 0, 0],
        _ => vec![1 + rng.below(4) as u8, rng.below(18) as u8, 0, 0, 0, 0, 0, 0],
    };
    Item { profile, seed, task: Task::Judge { machine, record } }
}

/// The action of a call that some guest has pending, or else of none.
fn call_of(machine: &[u8], rng: &mut Rng) -> Vec<u8> {
    let guest = rng.below(4);
    let [call, a, b] = [4364, 4368, 4372].map(|field| machine[field + guest]);
    let kind = [0, 5, 7, 9, 13, 14].get(call as usize).copied().unwrap_or(16);
    vec![kind, a, b, 0, 0, 0, 0, 0]
}

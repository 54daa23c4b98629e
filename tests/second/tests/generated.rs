//! Generated journals: validity, refusals without effect, values, coverage.

mod support;

use std::collections::BTreeSet;

use second::gen::calls::{self, Calls};
use second::gen::driver::Driver;
use second::gen::{journal, PROFILES};
use second::{decode, encode, fresh, step, valid, Action, GuestId, Place, State};

/// One record's passage.
struct Passage<'a> {
    record: &'a [u8],
    before: &'a State,
    after: &'a State,
    number: u8,
    value: u32,
}

/// Runs a generated journal on a fresh machine and looks at each record.
fn watch(seed: u64, count: usize, profile: &str, mut look: impl FnMut(Passage)) {
    let bytes = journal(seed, count, profile).unwrap();
    let mut state = fresh();
    for record in bytes[8..].chunks_exact(8) {
        let before = state.clone();
        let (number, value) = step(&mut state, record);
        look(Passage { record, before: &before, after: &state, number, value });
    }
}

#[test]
fn valid_states_stay_valid_and_refusals_change_nothing() {
    for profile in PROFILES {
        for seed in 0..6 {
            watch(seed, 2500, profile, |p| {
                assert!(valid(p.after), "{profile} {seed} {:?}", p.record);
                assert_ne!(p.number, 1);
                if p.number != 0 {
                    assert_eq!(p.value, 0);
                    assert!(p.before.to_bytes() == p.after.to_bytes());
                }
                if !matches!(p.record[0], 1 | 2) {
                    assert_eq!(p.value, 0);
                }
            });
        }
    }
}

#[test]
fn deep_runs_are_accepted_throughout() {
    for seed in 0..20 {
        watch(seed, 1000, "deep", |p| assert_eq!(p.number, 0, "{seed} {:?}", p.record));
    }
}

/// What is written to a page is read from it, however it is mapped and moved.
#[test]
fn reads_give_the_last_write_to_the_page() {
    for profile in PROFILES {
        for seed in 100..110 {
            let mut values = [0u32; 64];
            watch(seed, 3000, profile, |p| {
                let table = p.before.table_in_force().unwrap();
                match decode(p.record) {
                    Some(_) if p.number != 0 => {}
                    Some(Action::Read { va, .. }) => {
                        let page = p.before.maps(table, va).unwrap();
                        assert_eq!(p.value, values[page.index()], "{profile} {seed}");
                    }
                    Some(Action::Write { va, value, .. }) => {
                        values[p.before.maps(table, va).unwrap().index()] = value;
                    }
                    Some(Action::Unpin { pa }) => {
                        let guest = second::GuestId::new(p.before.active).unwrap();
                        values[p.before.registered(guest, pa).unwrap().index()] = 0;
                    }
                    _ => {}
                }
            });
        }
    }
}

/// All pairs of kind and number that the tables of docs/HOST.md allow, and no others.
#[test]
fn near_journals_meet_every_refusal_of_every_kind() {
    let numbers: [&[u8]; 16] = [
        &[0, 2],
        &[0, 2, 3, 5, 6],
        &[0, 2, 3, 5, 6],
        &[0, 2, 3, 5, 6],
        &[0, 2, 3, 5, 6],
        &[0, 2, 3, 4, 5, 7, 8, 9],
        &[0, 2, 3, 4, 7, 8, 9, 10],
        &[0, 2, 3, 4, 5, 6],
        &[0, 2, 3, 4],
        &[0, 2, 3, 4, 7, 8],
        &[0, 2, 3],
        &[0, 2, 3],
        &[0, 2, 3, 4],
        &[0, 2, 3, 4, 10, 11],
        &[0, 2, 3, 4, 7, 12],
        &[0, 2, 3, 4],
    ];
    let mut met = BTreeSet::new();
    for seed in 0..60 {
        watch(seed, 600, "near", |p| {
            met.insert((p.record[0], p.number));
        });
    }
    for (kind, numbers) in numbers.iter().enumerate() {
        let of_kind: Vec<u8> =
            met.iter().filter(|pair| pair.0 == kind as u8).map(|pair| pair.1).collect();
        assert_eq!(of_kind, *numbers, "kind {kind}");
    }
    assert!(met.iter().filter(|pair| pair.0 > 15).all(|pair| pair.1 == 2));
}

/// What happened in a run, counted.
#[derive(Default, Debug)]
struct Events {
    dirty_evictions: usize,
    dirty_stealth_saves: usize,
    stealth_loads: usize,
    marks_lost: usize,
    used_up: usize,
    given_back: usize,
    second_tables: usize,
    kinds: BTreeSet<u8>,
    guests: BTreeSet<u8>,
}

fn count_events(events: &mut Events, p: &Passage) {
    let dirty = |state: &State, set: usize, way: usize| {
        let line = state.cache[set].ways[way];
        line.page.page().filter(|page| state.page(*page).memory != line.value)
    };
    for set in 0..8 {
        for way in 0..2 {
            let gone = p.after.cache[set].ways[way].page != p.before.cache[set].ways[way].page;
            if gone && dirty(p.before, set, way).is_some() {
                events.dirty_evictions += (p.record[0] <= 4) as usize;
                events.dirty_stealth_saves += (set == 7) as usize;
            }
        }
    }
    let marks = |state: &State| state.pages.iter().filter(|page| page.mark == 0).count();
    events.marks_lost += (marks(p.after) > marks(p.before)) as usize;
    events.used_up += (p.after.free == 0 && p.before.free != 0) as usize;
    events.given_back += (p.before.free == 0 && p.after.free != 0) as usize;
    let loads = matches!(p.record[0], 8 | 9) && p.after.cache[7].ways[0].page != Place::Empty;
    events.stealth_loads += loads as usize;
    events.second_tables += (p.after.guests[p.after.active as usize].current != 0) as usize;
    events.kinds.insert(p.record[0]);
    events.guests.insert(p.after.active);
}

#[test]
fn deep_runs_go_deep() {
    for seed in 0..5 {
        let mut e = Events::default();
        watch(seed, 4096, "deep", |p| count_events(&mut e, &p));
        assert_eq!((e.kinds.len(), e.guests.len()), (16, 4), "{seed}");
        assert!(e.dirty_evictions >= 50 && e.dirty_stealth_saves >= 5, "{seed} {e:?}");
        assert!(e.stealth_loads >= 5 && e.marks_lost >= 5, "{seed} {e:?}");
        assert!(e.used_up >= 1 && e.given_back >= 1 && e.second_tables >= 100, "{seed} {e:?}");
    }
}

/// How calls were declined in runs, counted.
#[derive(Default, Debug)]
struct Drops {
    /// By the answer, of the active guest and of another.
    answers: [[usize; 2]; 13],
    /// What came of calls, by the names that it has there.
    fates: [usize; calls::NAMES.len()],
}

fn count_drops(drops: &mut Drops, seed: u64, count: usize, profile: &str) {
    let mut calls = Calls::default();
    watch(seed, count, profile, |p| {
        let happened = calls.note(p.record, p.number, p.before);
        drops.fates.iter_mut().zip(happened).for_each(|(fate, so)| *fate += so as usize);
        if p.record[0] == 15 && GuestId::new(p.record[1]).is_some() {
            let another = p.record[1] != p.before.active;
            drops.answers[p.number as usize][another as usize] += 1;
        }
    });
}

#[test]
fn calls_are_declined_in_every_way() {
    let mut near = Drops::default();
    (0..60).for_each(|seed| count_drops(&mut near, seed, 600, "near"));
    let each = [0, 3, 4].map(|number| near.answers[number]);
    assert!(each.iter().flatten().all(|count| *count >= 20), "{near:?}");
    assert!(near.fates.iter().all(|count| *count >= 5), "{near:?}");
    for seed in 0..5 {
        let mut deep = Drops::default();
        count_drops(&mut deep, seed, 4096, "deep");
        assert!(deep.answers[0].iter().all(|count| *count >= 5), "{seed} {deep:?}");
        let [_, left_behind, again, in_a_row, ..] = deep.fates;
        assert!(left_behind >= 5 && again >= 5 && in_a_row >= 1, "{seed} {deep:?}");
    }
}

/// All of a deep run is accepted, but not every call of it is served or dropped.
#[test]
fn some_calls_stay() {
    let stays = |seed: &u64| {
        let mut left = false;
        watch(*seed, 4096, "deep", |p| {
            left = p.after.guests.iter().any(|guest| guest.pending.is_stored());
        });
        left
    };
    let runs = (0..20).filter(stays).count();
    assert!(runs >= 5, "{runs} of 20");
}

#[test]
fn journals_are_the_seeds_and_have_their_length() {
    for profile in PROFILES {
        let one = journal(7, 200, profile).unwrap();
        assert!(one == journal(7, 200, profile).unwrap());
        assert!(one != journal(8, 200, profile).unwrap());
        assert_eq!((one.len() - 8) / 8, 200);
        for count in [0, 1, 2, 5, 4096] {
            assert_eq!((journal(1, count, profile).unwrap().len() - 8) / 8, count);
        }
    }
    assert!(journal(1, 1, "other").is_none());
    let left_over: BTreeSet<usize> =
        (0..60).map(|seed| journal(seed, 3, "noise").unwrap().len() % 8).collect();
    assert_eq!(left_over.len(), 8);
}

/// Silent after silent, however long nothing else is given.
#[test]
fn a_run_without_records_ends() {
    let mut driver = Driver::new(0, 20);
    let turns = (0..10_000).take_while(|_| driver.goes_on()).count();
    assert!(turns < 10_000);
    assert_eq!(driver.records, [[0; 8]; 20]);
}

#[test]
fn actions_and_records_are_the_same() {
    let mut decoded = 0;
    for profile in PROFILES {
        watch(21, 3000, profile, |p| {
            if let Some(action) = decode(p.record) {
                assert_eq!(encode(action), p.record);
                decoded += 1;
            }
        });
    }
    assert!(decoded > 5000);
}

#[test]
fn a_full_journal_is_quick() {
    let bytes = journal(4, 4096, "deep").unwrap();
    let start = std::time::Instant::now();
    second::program_output(&bytes);
    assert!(start.elapsed().as_secs() < 5);
}

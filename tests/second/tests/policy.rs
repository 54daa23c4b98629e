//! Writes under write-through, and that the policy changes no answer.

mod support;

use second::gen::{journal, PROFILES};
use second::{fresh, fresh_with, start, step, valid, Policy, State};
use support::{after_nine, after_nine_on, nine, Machine};

fn through() -> Machine {
    Machine::started(Policy::WriteThrough)
}

/// Data pages 8, 9, .. of guest 0 at these addresses.
fn mapped(addresses: &[u8]) -> Machine {
    let mut m = through();
    for (i, va) in addresses.iter().enumerate() {
        m.served(4, 1 + i as u8, 0);
        m.served(1, *va, 1 + i as u8);
    }
    m
}

#[test]
fn a_host_is_started_with_a_policy() {
    for before in [fresh(), after_nine().0, State::from_bytes(&[0xD7; second::STATE_BYTES])] {
        for byte in 0..=255 {
            let mut state = before.clone();
            let outcome = start(&mut state, byte);
            match byte {
                0 => assert!(outcome == Ok(()) && state == fresh()),
                1 => assert!(outcome == Ok(()) && state == fresh_with(Policy::WriteThrough)),
                _ => assert!(outcome == Err(1) && state == before),
            }
        }
    }
}

#[test]
fn the_nine_records_leave_memory_300() {
    let (mut back, mut m) = (Machine::fresh(), through());
    for record in nine() {
        assert_eq!(m.give(&record), back.give(&record));
    }
    assert_eq!((back.memory(8), m.memory(8)), (0, 300));
    assert_eq!((m.line(0, 0), m.history(0), m.slot(0)), (Some((0, 8, 300)), 1, Some((0, 8))));
    m.0.pages[8].memory = 0;
    m.0.policy = Policy::WriteBack;
    assert_eq!(m.0, back.0);
}

#[test]
fn hits_and_misses() {
    let mut m = mapped(&[0, 8]);
    m.write(0, 5);
    assert_eq!((m.memory(8), m.line(0, 0), m.history(0)), (5, Some((0, 8, 5)), 1));
    m.write(0, 6);
    assert_eq!((m.memory(8), m.line(0, 0), m.history(0)), (6, Some((0, 8, 6)), 1));
    assert_eq!(m.read(8), 0);
    m.write(8, u32::MAX);
    assert_eq!((m.memory(9), m.line(0, 1)), (u32::MAX, Some((8, 9, u32::MAX))));
    m.write(8, 0);
    assert_eq!((m.memory(8), m.memory(9), m.read(0), m.read(8)), (6, 0, 6, 0));
    m.ok(11, 0, 0);
    assert_eq!(m.give(&[4, 0, 0, 0, 7, 0, 0, 1]), (0, 0));
    assert_eq!((m.memory(8), m.line(0, 0)), (0x0100_0007, Some((0, 8, 0x0100_0007))));
}

#[test]
fn a_write_that_takes_a_line_out() {
    let mut m = mapped(&[0, 8, 16]);
    for (va, value) in [(0, 5), (8, 6), (16, 7)] {
        m.write(va, value);
    }
    assert_eq!((m.line(0, 0), m.line(0, 1)), (Some((16, 10, 7)), Some((8, 9, 6))));
    assert_eq!((m.memory(8), m.memory(9), m.memory(10)), (5, 6, 7));
    assert_eq!((m.read(0), m.history(0)), (5, 0));
    assert_eq!(m.line(0, 1), Some((0, 8, 5)));
}

#[test]
fn a_page_that_is_shared() {
    let mut m = after_nine_on(through());
    m.served(1, 1, 1);
    assert_eq!((m.memory(8), m.cacheable(8), m.line(0, 0)), (300, false, None));
    m.write(1, 7);
    assert_eq!((m.memory(8), m.line(1, 0), m.slot(1)), (7, None, Some((1, 8))));
    assert_eq!(m.read(0), 7);
}

#[test]
fn del_and_unpin() {
    let mut m = after_nine_on(through());
    m.served(2, 0, 0);
    assert_eq!((m.memory(8), m.line(0, 0), m.slot(0)), (300, None, None));
    m.served(5, 1, 0);
    assert_eq!(m.memory(8), 0);
    m.served(4, 3, 0);
    m.served(1, 0, 3);
    assert_eq!(m.read(0), 0);
}

#[test]
fn stealth_lines() {
    let mut m = through();
    m.served(4, 1, 0);
    m.served(4, 2, 1);
    m.served(1, 7, 1);
    m.write(7, 5);
    assert_eq!((m.memory(8), m.line(7, 0)), (5, Some((7, 8, 5))));
    m.go_to(1);
    assert_eq!((m.memory(8), m.line(7, 0)), (5, None));
    m.go_to(0);
    assert_eq!(m.line(7, 0), Some((7, 8, 5)));
    m.write(7, 6);
    m.served(3, 2, 0);
    assert_eq!((m.memory(8), m.line(7, 0)), (6, None));
    m.served(1, 7, 1);
    assert_eq!((m.line(7, 0), m.history(7)), (Some((7, 8, 6)), 0));
    assert_eq!(m.read(7), 6);
}

/// Only the policy 1 writes through; another is refused before it comes to that.
#[test]
fn an_odd_policy_is_not_valid() {
    for byte in 2..=255 {
        let mut state = after_nine().0;
        state.policy = Policy::from_byte(byte);
        let before = state.clone();
        assert_eq!(step(&mut state, &[3, 0, 0, 0, 1, 0, 0, 0]), (1, 0));
        assert_eq!(state, before);
    }
}

fn present(state: &State, page: usize) -> u32 {
    let line = state.lines().find(|line| line.page.byte() as usize == page + 1);
    line.map_or(state.pages[page].memory, |line| line.value)
}

/// From two fresh machines, one of each policy: equal but for the policy and memory, with the same lines and present values.
#[test]
fn the_policy_changes_no_answer() {
    for (profile, seed) in PROFILES.into_iter().flat_map(|p| (0..4).map(move |seed| (p, seed))) {
        let (mut back, mut through) = (fresh(), fresh_with(Policy::WriteThrough));
        let mut dirty = 0;
        for record in journal(seed, 2500, profile).unwrap()[8..].chunks(8) {
            let answer = step(&mut through, record);
            assert_eq!(step(&mut back, record), answer, "{profile} {seed} {record:?}");
            assert!(valid(&through) && through.policy == Policy::WriteThrough);
            assert!((0..64).all(|page| present(&back, page) == through.pages[page].memory));
            dirty += !back.lines().all(|line| back.memory_has(line)) as usize;
        }
        assert!(dirty > 0 || profile == "noise");
        let mut same = through;
        same.policy = Policy::WriteBack;
        for (page, other) in same.pages.iter_mut().zip(&back.pages) {
            page.memory = other.memory;
        }
        assert_eq!(same, back);
    }
}

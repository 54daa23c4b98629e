//! What is hidden of one guest and what is seen of a run (docs/HOST.md, "Secrecy").

mod support;

use second::rng::Rng;
use second::secrecy::{hide, hide_bytes, is_hidden, open, seen, told, walk};
use second::{fresh, valid, GuestId, Policy, State, STATE_BYTES};
use support::base::{base, ACTIVE, LINE_PAGE, LINE_VALUE, MEMORY, OWNER, SLOT, SLOT_PAGE};
use support::Machine;

fn guest(number: u8) -> GuestId {
    GuestId::new(number).unwrap()
}

/// Guest 0 has page 8 at 7 and page 9 at 0, and runs.
fn keeper() -> Machine {
    let mut m = Machine::fresh();
    m.served(4, 1, 0);
    m.served(1, 7, 1);
    m.served(4, 2, 0);
    m.served(1, 0, 2);
    m
}

#[test]
fn hidden_are_reads_and_writes_at_7_while_v_is_active() {
    let state = fresh();
    for kind in 0..=255 {
        for address in 0..=255 {
            let record = [kind, address, 0, 0, 0, 0, 0, 0];
            let hidden = (1..=4).contains(&kind) && address == 7;
            assert_eq!(is_hidden(guest(0), &state, &record), hidden);
            assert!(!is_hidden(guest(1), &state, &record));
        }
    }
    // whatever else it has, and of any length that has two bytes
    for record in [
        &[3, 7, 9, 9, 9, 9, 9, 9][..],
        &[1, 7],
        &[4, 7, 0],
        &[2; 0],
        &[2],
        &[1, 7, 0, 0, 0, 0, 0, 0, 0],
    ] {
        assert_eq!(is_hidden(guest(0), &state, record), record.len() > 1);
    }
}

#[test]
fn a_told_write_of_v_has_no_value_and_keeps_its_length() {
    let state = fresh();
    let record = [3, 8, 5, 6, 1, 2, 3, 4, 9, 9];
    for length in 0..=record.len() {
        let mut expected = record;
        expected[4..8].fill(0);
        let form = told(guest(0), &state, &record[..length]);
        assert_eq!(form.as_deref(), Some(&expected[..length]));
        assert_eq!(told(guest(1), &state, &record[..length]).as_deref(), Some(&record[..length]));
    }
    for kind in (0..=255).filter(|kind| ![3, 4].contains(kind)) {
        let record = [kind, 8, 0, 0, 1, 2, 3, 4];
        assert_eq!(told(guest(0), &state, &record).as_deref(), Some(&record[..]));
    }
    assert_eq!(told(guest(0), &state, &[4, 7, 0, 0, 1, 2, 3, 4]), None);
}

/// By the offsets of docs/STATE.md, on any bytes.
fn hidden_by_offsets(v: u8, machine: &[u8]) -> Vec<u8> {
    let mut bytes = machine.to_vec();
    (bytes[SLOT + 7], bytes[SLOT_PAGE + 7]) = (0, 0);
    let owned = |page: usize| machine[OWNER + page] == 2 + v;
    for page in (0..64).filter(|page| owned(*page)) {
        bytes[MEMORY + 4 * page..][..4].fill(0);
    }
    for line in 0..16 {
        if matches!(machine[LINE_PAGE + line], page @ 1..=64 if owned(page as usize - 1)) {
            bytes[LINE_VALUE + 4 * line..][..4].fill(0);
        }
    }
    bytes
}

#[test]
fn hiding_changes_slot_7_and_values_alone() {
    let mut rng = Rng::new(7);
    let mut machines: Vec<Vec<u8>> = Policy::BOTH.map(base).into();
    machines.extend((0..40).map(|_| {
        let mut noise: Vec<u8> = (0..STATE_BYTES).map(|_| rng.byte()).collect();
        noise[..64].iter_mut().for_each(|owner| *owner %= 8);
        noise[LINE_PAGE..LINE_PAGE + 16].iter_mut().for_each(|page| *page %= 70);
        noise
    }));
    for machine in machines {
        for v in 0..4 {
            let hidden = hide_bytes(guest(v), &machine);
            assert_eq!(hidden, hidden_by_offsets(v, &machine));
            assert_eq!(hide_bytes(guest(v), &hidden), hidden);
        }
    }
}

#[test]
fn a_state_with_v_hidden_is_valid_still() {
    for policy in Policy::BOTH {
        let machine = base(policy);
        for v in 0..4 {
            assert!(valid(&State::from_bytes(&hide_bytes(guest(v), &machine))));
        }
        assert_ne!(hide_bytes(guest(0), &machine), machine);
        assert_eq!(machine[ACTIVE], 0);
    }
}

#[test]
fn two_runs_with_the_same_open_records() {
    let (v, start) = (guest(0), keeper().0);
    let one: [[u8; 8]; 5] = [
        [3, 0, 0, 0, 1, 0, 0, 0],
        [3, 7, 0, 0, 5, 0, 0, 0],
        [1, 0, 0, 0, 0, 0, 0, 0],
        [11, 0, 0, 0, 0, 0, 0, 0],
        [8, 1, 0, 0, 0, 0, 0, 0],
    ];
    let other: [[u8; 8]; 6] = [
        [3, 0, 0, 0, 2, 0, 0, 0],
        [1, 0, 0, 0, 0, 0, 0, 0],
        [2, 7, 0, 0, 0, 0, 0, 0],
        [1, 7, 1, 0, 0, 0, 0, 0],
        [11, 0, 0, 0, 0, 0, 0, 0],
        [8, 1, 0, 0, 0, 0, 0, 0],
    ];
    let run = |records: &[[u8; 8]]| {
        let mut state = start.clone();
        let walked = walk(v, &mut state, records.iter().map(|record| &record[..]));
        (walked, state)
    };
    let ((one, end), (other, other_end)) = (run(&one), run(&other));
    assert_eq!(open(&one), open(&other));
    assert_eq!(open(&one)[0], [3, 0, 0, 0, 0, 0, 0, 0]);
    assert_eq!(seen(v, &one), seen(v, &other));
    assert_eq!((one[1].value, other[1].value, seen(v, &one)[1].value), (1, 2, 0));
    assert_eq!((one[2].at, other[2].at), (3, 4));
    assert_ne!(end, other_end);
    assert_eq!(hide(v, &end), hide(v, &other_end));
}

/// A value that another guest reads is seen, and so is what V has not.
#[test]
fn others_are_seen() {
    let mut state = keeper().0;
    let records: [[u8; 8]; 2] = [[3, 0, 0, 0, 1, 0, 0, 0], [1, 0, 0, 0, 0, 0, 0, 0]];
    let walked = walk(guest(1), &mut state, records.iter().map(|record| &record[..]));
    assert_eq!(open(&walked), [&records[0][..], &records[1][..]]);
    assert_eq!(seen(guest(1), &walked)[1].value, 1);
    assert_ne!(hide(guest(1), &state), hide(guest(0), &state));
}

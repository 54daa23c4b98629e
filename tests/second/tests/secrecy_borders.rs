//! What the definitions of docs/HOST.md, "Secrecy", need: with less hidden or less told, two runs tell themselves apart.

mod support;

use second::secrecy::{hide, told};
use second::{GuestId, State, STEALTH};
use support::Machine;

const V: u8 = 0;

fn v() -> GuestId {
    GuestId::new(V).unwrap()
}

/// V has page 8 at 7 and runs, with slot 7 empty; guest 1 has page 9 at 7.
fn two_keepers() -> Machine {
    let mut m = Machine::fresh();
    for guest in [V, 1] {
        m.go_to(guest);
        m.served(4, 1, 0);
        m.served(1, 7, 1);
    }
    m.go_to(V);
    m
}

/// Where both lead, the second with a record more.
fn with_and_without(start: &Machine, record: [u8; 8]) -> [State; 2] {
    let (mut one, mut other) = (Machine(start.0.clone()), Machine(start.0.clone()));
    assert_eq!(other.give(&record).0, 0);
    assert_eq!(one.give(&[0; 8]), (0, 0));
    [one.0, other.0]
}

#[test]
fn slot_7_is_emptied() {
    let [one, other] = with_and_without(&two_keepers(), [1, 7, 0, 0, 0, 0, 0, 0]);
    assert_eq!(hide(v(), &one), hide(v(), &other));
    assert_ne!(one.tlb[STEALTH.home()], other.tlb[STEALTH.home()]);
}

#[test]
fn what_another_guest_does_at_7_is_told() {
    let mut m = two_keepers();
    m.go_to(1);
    let record = [3, 7, 0, 0, 1, 0, 0, 0];
    assert_eq!(told(v(), &m.0, &record).as_deref(), Some(&record[..]));
    let [one, other] = with_and_without(&m, record);
    assert_ne!(hide(v(), &one), hide(v(), &other));
}

#[test]
fn what_v_reads_elsewhere_is_told() {
    let mut m = two_keepers();
    m.served(4, 2, 0);
    m.served(1, 0, 2);
    let [one, other] = with_and_without(&m, [1, 0, 0, 0, 0, 0, 0, 0]);
    assert_ne!(hide(v(), &one), hide(v(), &other));
}

/// A value of 7 moves on with its page: what V owns counts, and not the address.
#[test]
fn values_are_hidden_by_owner() {
    let ends = [5, 6].map(|value| {
        let mut m = two_keepers();
        m.write(7, value);
        m.served(2, 7, 0);
        m.served(1, 8, 1);
        assert_eq!(m.read(8), value);
        m.0
    });
    let line = |state: &State| state.cache[0].ways[0];
    assert_eq!([line(&ends[0]).address, line(&ends[1]).address], [8, 8]);
    assert_eq!([line(&ends[0]).value, line(&ends[1]).value], [5, 6]);
    assert_eq!(hide(v(), &ends[0]), hide(v(), &ends[1]));
}

/// Nor is it hidden by who is active.
#[test]
fn values_are_hidden_while_another_guest_is_active() {
    let ends = [5, 6].map(|value| {
        let mut m = two_keepers();
        m.write(7, value);
        m.go_to(1);
        assert_eq!(m.read(7), 0);
        m.0
    });
    assert_ne!(ends[0], ends[1]);
    assert_eq!(hide(v(), &ends[0]), hide(v(), &ends[1]));
}

/// A write that is cut short is refused, and one with its value 0 is not.
#[test]
fn told_forms_keep_their_length() {
    let mut m = two_keepers();
    m.served(4, 2, 0);
    m.served(1, 0, 2);
    let record = [3, 0, 0, 0, 1, 2, 3, 4];
    let forms: Vec<_> = (4..=8).map(|length| told(v(), &m.0, &record[..length])).collect();
    assert!(forms.windows(2).all(|two| two[0] != two[1]));
    assert_eq!((m.give(&record[..4]).0, m.give(&record).0), (2, 0));
}

/// Bytes 4 to 7 count in what is no write, and byte 3 in a write.
#[test]
fn told_forms_keep_what_is_not_a_value() {
    let mut m = two_keepers();
    for (right, wrong) in [
        ([11, 0, 0, 0, 0, 0, 0, 0], [11, 0, 0, 0, 0, 0, 0, 1]),
        ([4, 8, 0, 0, 5, 0, 0, 0], [4, 8, 0, 1, 5, 0, 0, 0]),
    ] {
        assert_ne!(told(v(), &m.0, &right), told(v(), &m.0, &wrong));
        assert_ne!(m.give(&wrong).0, m.give(&right).0);
    }
}

/// Of two states with V hidden alike one may be valid and the other not.
#[test]
fn states_must_be_valid() {
    let m = two_keepers();
    let mut damaged = m.0.clone();
    damaged.pages[V as usize].memory = 1;
    assert_eq!(hide(v(), &m.0), hide(v(), &damaged));
    assert!(second::valid(&m.0) && !second::valid(&damaged));
}

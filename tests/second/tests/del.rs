//! del of an address that the table in force maps, and of one that it does not.

mod support;

use second::state::Pending;
use support::Machine;

const DEL: u8 = 7;
const STEALTH: u8 = 7;
const GUEST: u8 = 2;
const OTHER: u8 = 1;

/// Where each of the two guests has its tables and a data page.
const FIRST: u8 = 0;
const SECOND: u8 = 5;
const DATA: u8 = 1;

/// Who maps an address. Where one table of the guest alone does, its other one is in force.
#[derive(Clone, Copy, Debug)]
enum By {
    Nobody,
    FirstInForce,
    SecondInForce,
    FirstAlone,
    SecondAlone,
    OtherGuestAlone,
}

const ALL: [By; 6] = [
    By::Nobody,
    By::FirstInForce,
    By::SecondInForce,
    By::FirstAlone,
    By::SecondAlone,
    By::OtherGuestAlone,
];

impl By {
    /// The guest whose table maps the address, that table, and the table in force.
    fn tables(self) -> Option<(u8, u8, u8)> {
        match self {
            By::Nobody => None,
            By::FirstInForce => Some((GUEST, FIRST, FIRST)),
            By::SecondInForce => Some((GUEST, SECOND, SECOND)),
            By::FirstAlone => Some((GUEST, FIRST, SECOND)),
            By::SecondAlone => Some((GUEST, SECOND, FIRST)),
            By::OtherGuestAlone => Some((OTHER, FIRST, FIRST)),
        }
    }

    fn is_in_force(self) -> bool {
        matches!(self, By::FirstInForce | By::SecondInForce)
    }
}

fn is_reserved(va: u8) -> bool {
    va >= 48 || [15, 23, 31, 39, 47].contains(&va)
}

fn mappable() -> impl Iterator<Item = u8> {
    (0..64).filter(|va| !is_reserved(*va))
}

fn but(va: u8) -> impl Iterator<Item = u8> {
    mappable().filter(move |other| *other != va)
}

/// The guest runs, with an empty TLB. Where somebody maps the address, 300 was written there.
fn mapped(va: u8, by: By) -> Machine {
    let mut m = Machine::fresh();
    for guest in [OTHER, GUEST] {
        m.go_to(guest);
        m.served(4, DATA, 0);
        m.served(4, SECOND, 1);
    }
    if let Some((owner, table, in_force)) = by.tables().filter(|_| !is_reserved(va)) {
        m.go_to(owner);
        m.served(3, table, 0);
        m.served(1, va, DATA);
        m.write(va, 300);
        m.go_to(GUEST);
        m.served(3, in_force, 0);
    }
    m
}

fn copy(m: &Machine) -> Machine {
    Machine(m.0.clone())
}

fn pending(m: &Machine) -> Pending {
    m.0.guests[GUEST as usize].pending
}

/// The guest asks, and is refused with the number, as often as it is tried; the call stays.
fn refused(m: &mut Machine, va: u8, number: u8) {
    assert_eq!(m.hcall(2, va, 0), 0);
    let before = m.0.to_bytes();
    for _ in 0..2 {
        assert_eq!(m.no(DEL, va, 0), number, "del {va}");
        assert_eq!((m.no(12, 0, 0), m.no(8, GUEST, 0)), (4, 4), "del {va}");
    }
    assert!(m.0.to_bytes() == before, "del {va}");
    assert_eq!(pending(m), Pending { number: 2, a: va, b: 0 });
}

/// The call is dropped while its guest is active.
fn dropped(m: &mut Machine, va: u8) {
    m.ok(15, GUEST, 0);
    assert_eq!((pending(m), m.no(DEL, va, 0)), (Pending::NONE, 4));
    m.ok(12, 0, 0);
}

/// The call is dropped after another guest came, while that one is active.
fn left_and_dropped(m: &mut Machine, va: u8) {
    m.ok(8, OTHER, 0);
    assert_eq!((m.no(8, GUEST, 0), m.no(DEL, va, 0)), (4, 4));
    m.ok(12, 0, 0);
    m.ok(11, 0, 0);
    assert_eq!((m.no(8, GUEST, 0), pending(m).a), (4, va));
    m.ok(15, GUEST, 0);
    m.ok(8, GUEST, 0);
    m.ok(12, 0, 0);
}

#[test]
fn every_address_by_who_maps_it() {
    for (va, by) in (0..64).flat_map(|va| ALL.map(|by| (va, by))) {
        let mut m = mapped(va, by);
        match (is_reserved(va), by.is_in_force()) {
            (true, _) => refused(&mut m, va, 5),
            (false, false) => refused(&mut m, va, 6),
            (false, true) => {
                m.served(2, va, 0);
                assert_eq!((pending(&m), m.no(1, va, 0)), (Pending::NONE, 6), "{va} {by:?}");
                continue;
            }
        }
        for ending in [dropped, left_and_dropped] {
            let mut m = copy(&m);
            ending(&mut m, va);
            assert_eq!(m.no(1, va, 0), if is_reserved(va) { 5 } else { 6 }, "{va} {by:?}");
        }
    }
}

/// What only another table maps is still there, with its line where it had one.
#[test]
fn another_table_keeps_its_entry() {
    for (va, by) in mappable().flat_map(|va| ALL.map(|by| (va, by))) {
        let Some((owner, table, in_force)) = by.tables() else { continue };
        if (owner, table) == (GUEST, in_force) {
            continue;
        }
        let mut m = mapped(va, by);
        let has_line =
            |m: &Machine| m.0.lines().any(|line| (line.address, line.value) == (va, 300));
        assert_eq!(has_line(&m), va != STEALTH, "{va} {by:?}");
        refused(&mut m, va, 6);
        assert_eq!(has_line(&m), va != STEALTH, "{va} {by:?}");
        dropped(&mut m, va);
        m.go_to(owner);
        m.served(3, table, 0);
        assert_eq!(m.read(va), 300, "{va} {by:?}");
        m.served(2, va, 0);
    }
}

#[test]
fn the_tlb_is_not_asked() {
    for (va, by) in mappable().flat_map(|va| [(va, By::FirstInForce), (va, By::SecondInForce)]) {
        let slot = va as usize % 8;
        let mut without = mapped(va, by);
        assert_eq!(without.slot(slot), None);
        let mut with = copy(&without);
        assert_eq!(with.read(va), 300);
        assert!(with.slot(slot).is_some_and(|(held, _)| held == va));
        for m in [&mut without, &mut with] {
            m.served(2, va, 0);
            assert_eq!(m.slot(slot), None, "{va} {by:?}");
        }
    }
}

/// The slot and the set of an address that is not mapped have another one's entry and line.
#[test]
fn another_address_of_the_slot_stays() {
    for va in but(STEALTH) {
        let other = (va + 8) % 48;
        let mut m = mapped(other, By::FirstInForce);
        assert_eq!(m.read(other), 300);
        let held = m.slot(va as usize % 8);
        assert!(held.is_some_and(|(held, _)| held == other));
        refused(&mut m, va, 6);
        dropped(&mut m, va);
        assert_eq!((m.slot(va as usize % 8), m.read(other)), (held, 300));
    }
}

/// Each address counts by itself, whether every other one is mapped or none.
#[test]
fn the_other_addresses_do_not_count() {
    let mut all = mapped(STEALTH, By::FirstInForce);
    all.served(4, 2, 0);
    but(STEALTH).for_each(|va| all.served(1, va, 2));
    for va in mappable() {
        let mut m = copy(&all);
        m.served(2, va, 0);
        refused(&mut m, va, 6);
        dropped(&mut m, va);
        but(va).for_each(|other| m.served(2, other, 0));
        let mut m = mapped(va, By::FirstInForce);
        for other in but(va) {
            refused(&mut m, other, 6);
            dropped(&mut m, other);
        }
        m.served(2, va, 0);
    }
}

#[test]
fn a_second_time_there_is_nothing() {
    for va in mappable() {
        let mut m = mapped(va, By::FirstInForce);
        assert_eq!(m.call(2, va, 0), 0);
        assert_eq!(m.no(DEL, va, 0), 4);
        m.ok(12, 0, 0);
        refused(&mut m, va, 6);
        dropped(&mut m, va);
        m.served(1, va, DATA);
        assert_eq!(m.read(va), 300);
        m.served(2, va, 0);
    }
}

#[test]
fn two_before_three_before_four_before_five_before_six() {
    for (va, by) in (0..64).flat_map(|va| ALL.map(|by| (va, by))) {
        let mut m = mapped(va, by);
        let no_record = |m: &mut Machine| (m.no(DEL, va + 64, 0), m.no(DEL, va, 1));
        assert_eq!((no_record(&mut m), m.no(DEL, va, 0)), ((2, 2), 3), "{va} {by:?}");
        m.ok(11, 0, 0);
        assert_eq!((no_record(&mut m), m.no(DEL, va, 0)), ((2, 2), 4), "{va} {by:?}");
        m.ok(12, 0, 0);
        for (call, a) in [(1, va), (2, va ^ 1), (3, va % 16), (5, va % 16)] {
            assert_eq!(m.hcall(call, a, 0), 0);
            assert_eq!((no_record(&mut m), m.no(DEL, va, 0)), ((2, 2), 4), "{va} {by:?}");
            dropped(&mut m, va);
        }
        assert_eq!(m.hcall(2, va, 0), 0);
        let number = match (is_reserved(va), by.is_in_force()) {
            (true, _) => 5,
            (false, in_force) => [6, 0][in_force as usize],
        };
        assert_eq!((no_record(&mut m), m.no(DEL, va, 0)), ((2, 2), number), "{va} {by:?}");
    }
}

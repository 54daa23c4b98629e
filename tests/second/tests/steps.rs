//! Steps and refusals that the rules single out.

mod support;

use support::{after_nine, Machine};

/// Data pages 8, 9, ... at physical 1, 2, ... of guest 0.
fn with_data(pages: u8) -> Machine {
    let mut m = Machine::fresh();
    for pa in 1..=pages {
        m.served(4, pa, 0);
    }
    m
}

#[test]
fn one_before_two_before_three() {
    let mut m = Machine::fresh();
    m.0.pages[4].memory = 1;
    let before = m.0.clone();
    for record in [&[][..], &[0; 8], &[0; 9], &[16; 8]] {
        assert_eq!(second::step(&mut m.0, record), (1, 0));
    }
    assert_eq!(m.0, before);
    let mut m = Machine::fresh();
    assert_eq!(m.no(12, 1, 0), 2);
    assert_eq!(m.give(&[]), (2, 0));
    assert_eq!(m.give(&[0; 7]), (2, 0));
}

#[test]
fn unused_bytes_are_zero() {
    let mut m = Machine::fresh();
    for kind in 0..16u8 {
        for at in 4..8 {
            let mut record = [kind, if kind == 6 { 7 } else { 0 }, 0, 0, 0, 0, 0, 0];
            record[at] = 1;
            let refused = m.give(&record).0 == 2;
            assert_eq!(refused, !matches!(kind, 3 | 4), "kind {kind} byte {at}");
        }
        let a = if kind == 6 { 7 } else { 0 };
        assert_eq!(m.give(&[kind, a, 0, 1, 0, 0, 0, 0]).0 == 2, kind != 10, "kind {kind} call");
        if kind == 10 {
            m = Machine::fresh();
        }
    }
}

#[test]
fn arguments_of_each_kind() {
    let limits: [(u8, u8, u8); 13] = [
        (1, 63, 0),
        (2, 63, 0),
        (3, 63, 0),
        (4, 63, 0),
        (5, 63, 15),
        (7, 63, 0),
        (8, 3, 0),
        (9, 15, 0),
        (13, 15, 1),
        (14, 15, 0),
        (0, 0, 0),
        (12, 0, 0),
        (15, 3, 0),
    ];
    let mut m = Machine::fresh();
    for (kind, a, b) in limits {
        assert_ne!(m.no(kind, a, b), 2, "kind {kind}");
        assert_eq!(m.no(kind, a + 1, 0), 2, "kind {kind} a");
        assert_eq!(m.no(kind, 0, b + 1), 2, "kind {kind} b");
    }
    assert_eq!((m.no(6, 6, 0), m.no(6, 8, 0), m.no(6, 7, 16), m.no(6, 7, 15)), (2, 2, 2, 3));
    for (call, a, b) in [(0, 0, 0), (1, 63, 15), (2, 63, 0), (3, 15, 0), (4, 15, 1), (5, 15, 0)] {
        assert_eq!(Machine::fresh().hcall(call, a, b), 0);
        assert_eq!(Machine::fresh().hcall(call, a + 1, b), 2);
        assert_eq!(Machine::fresh().hcall(call, a, b + 1), 2);
    }
    assert_eq!(Machine::fresh().hcall(6, 0, 0), 2);
    assert!((16..=255).all(|kind| m.no(kind, 0, 0) == 2));
}

#[test]
fn hcall_none_gives_the_host_control() {
    let mut m = Machine::fresh();
    assert_eq!(m.hcall(0, 0, 0), 0);
    assert_eq!(m.no(10, 0, 0), 3);
    m.ok(12, 0, 0);
}

#[test]
fn exactly_the_pending_call() {
    let mut m = with_data(1);
    assert_eq!(m.hcall(1, 7, 1), 0);
    assert_eq!((m.no(5, 6, 1), m.no(5, 7, 2), m.no(6, 7, 2), m.no(7, 7, 0)), (4, 4, 4, 4));
    assert_eq!((m.no(12, 0, 0), m.no(8, 0, 0)), (4, 4));
    assert_eq!(m.no(5, 7, 1), 5);
    assert_eq!(m.no(6, 7, 1), 0);
    assert_eq!(m.no(6, 7, 1), 4);
}

#[test]
fn a_guest_left_with_its_call() {
    let mut m = Machine::fresh();
    assert_eq!(m.hcall(4, 1, 0), 0);
    m.ok(8, 1, 0);
    assert_eq!(m.no(13, 1, 0), 4);
    assert_eq!(m.no(8, 0, 0), 4);
    m.ok(8, 1, 0);
}

#[test]
fn stealth_write_survives_a_switch_to_the_same_guest() {
    let mut m = with_data(1);
    m.served(1, 7, 1);
    assert_eq!(m.slot(7), Some((7, 8)));
    m.write(7, 41);
    assert_eq!(m.memory(8), 0);
    m.go_to(0);
    assert_eq!((m.memory(8), m.line(7, 0)), (41, Some((7, 8, 41))));
    assert_eq!(m.slot(7), None);
    m.write(7, 42);
    m.go_to(1);
    assert_eq!((m.memory(8), m.line(7, 0)), (42, None));
    m.go_to(0);
    assert_eq!((m.line(7, 0), m.history(7)), (Some((7, 8, 42)), 0));
    assert_eq!(m.read(7), 42);
}

#[test]
fn lswitch_loads_by_the_new_table() {
    let mut m = with_data(2);
    m.served(4, 3, 1);
    m.served(1, 7, 1);
    m.write(7, 5);
    m.served(3, 3, 0);
    assert_eq!((m.line(7, 0), m.memory(8)), (None, 5));
    m.served(1, 7, 2);
    m.write(7, 6);
    m.served(3, 0, 0);
    assert_eq!((m.line(7, 0), m.memory(9)), (Some((7, 8, 5)), 6));
    m.served(3, 0, 0);
    assert_eq!(m.read(7), 5);
}

#[test]
fn one_stealth_page_in_two_tables() {
    let mut m = with_data(1);
    m.served(4, 2, 1);
    m.served(1, 7, 1);
    m.write(7, 9);
    m.served(3, 2, 0);
    m.served(1, 7, 1);
    assert_eq!(m.read(7), 9);
    assert!(m.cacheable(8));
    assert_eq!(m.call(1, 7, 1), 10);
}

#[test]
fn refusals_nine_of_new_and_new_sm() {
    let mut m = with_data(1);
    m.served(1, 7, 1);
    assert_eq!(m.call(1, 3, 1), 9);
    let mut m = with_data(1);
    m.served(1, 3, 1);
    assert_eq!(m.call(1, 7, 1), 9);
    let mut m = with_data(1);
    m.served(1, 3, 1);
    m.served(1, 4, 1);
    m.served(2, 3, 0);
    m.served(2, 4, 0);
    assert!(!m.cacheable(8));
    assert_eq!(m.call(1, 7, 1), 9);
}

#[test]
fn seven_eight_and_twelve() {
    assert_eq!(Machine::fresh().call(1, 0, 1), 7);
    assert_eq!(Machine::fresh().call(1, 7, 1), 7);
    assert_eq!(Machine::fresh().call(3, 1, 0), 7);
    assert_eq!(Machine::fresh().call(5, 1, 0), 7);
    assert_eq!(Machine::fresh().call(1, 0, 0), 8);
    assert_eq!(Machine::fresh().call(1, 7, 0), 8);
    assert_eq!(with_data(1).call(3, 1, 0), 8);
    let mut m = with_data(1);
    m.served(1, 3, 1);
    assert_eq!(m.call(5, 1, 0), 12);
    let mut m = with_data(1);
    m.served(4, 2, 1);
    m.served(1, 3, 1);
    m.served(3, 2, 0);
    assert_eq!(m.call(5, 0, 0), 12);
}

#[test]
fn shared_page_is_cacheable_again_after_unpin() {
    let mut m = after_nine();
    m.served(1, 1, 1);
    m.write(1, 8);
    m.served(2, 0, 0);
    m.served(2, 1, 0);
    assert!(!m.cacheable(8));
    assert_eq!(m.memory(8), 8);
    m.served(5, 1, 0);
    assert_eq!((m.cacheable(8), m.memory(8)), (true, 0));
    m.served(4, 9, 0);
    assert_eq!(m.0.guests[0].physical[9].byte(), 9);
}

#[test]
fn del_and_new_write_back() {
    let mut m = after_nine();
    m.served(2, 0, 0);
    assert_eq!((m.memory(8), m.line(0, 0), m.slot(0)), (300, None, None));
    assert_eq!(m.history(0), 1);
    assert_eq!(m.call(2, 0, 0), 6);
    let mut m = after_nine();
    m.served(4, 2, 0);
    m.served(1, 0, 2);
    assert_eq!((m.memory(8), m.line(0, 0), m.slot(0)), (300, None, None));
    let mut m = after_nine();
    m.served(1, 0, 1);
    assert_eq!((m.memory(8), m.cacheable(8), m.line(0, 0)), (300, true, None));
}

#[test]
fn the_entry_of_another_address_stays_in_its_slot() {
    let mut m = after_nine();
    m.served(4, 2, 0);
    m.served(1, 16, 2);
    assert_eq!(m.slot(0), Some((0, 8)));
    m.served(2, 16, 0);
    assert_eq!(m.slot(0), Some((0, 8)));
}

#[test]
fn same_address_in_two_tables_is_not_sharing() {
    let mut m = after_nine();
    m.served(4, 2, 1);
    m.served(3, 2, 0);
    m.served(1, 0, 1);
    assert!(m.cacheable(8));
    assert_eq!(m.line(0, 0), Some((0, 8, 300)));
    assert_eq!(m.read(0), 300);
    m.served(1, 9, 1);
    assert!(!m.cacheable(8));
    assert_eq!((m.memory(8), m.line(0, 0)), (300, None));
}

#[test]
fn lines_are_keyed_by_page_too() {
    let mut m = after_nine();
    m.go_to(1);
    m.served(4, 1, 0);
    m.served(1, 0, 1);
    assert_eq!(m.read(0), 0);
    m.write(0, 4);
    assert_eq!((m.line(0, 0), m.line(0, 1)), (Some((0, 8, 300)), Some((0, 9, 4))));
    m.go_to(0);
    assert_eq!(m.read(0), 300);
}

#[test]
fn lower_empty_way_first_whatever_the_history() {
    let mut m = with_data(3);
    for (va, pa) in [(0, 1), (8, 2), (16, 3)] {
        m.served(1, va, pa);
    }
    m.read(0);
    m.served(2, 0, 0);
    assert_eq!((m.line(0, 0), m.history(0)), (None, 1));
    m.read(8);
    assert_eq!((m.line(0, 0), m.history(0)), (Some((8, 9, 0)), 1));
    m.read(16);
    assert_eq!((m.line(0, 1), m.history(0)), (Some((16, 10, 0)), 0));
    m.served(2, 16, 0);
    m.served(1, 24, 3);
    m.read(24);
    assert_eq!((m.line(0, 1), m.history(0)), (Some((24, 10, 0)), 0));
}

#[test]
fn hyper_accesses_do_the_same() {
    let mut m = after_nine();
    m.ok(11, 0, 0);
    assert_eq!(m.give(&[2, 0, 0, 0, 0, 0, 0, 0]), (0, 300));
    assert_eq!(m.give(&[4, 0, 0, 0, 1, 2, 3, 4]), (0, 0));
    assert_eq!(m.give(&[2, 0, 0, 0, 0, 0, 0, 0]), (0, 0x0403_0201));
    assert_eq!((m.no(1, 0, 0), m.no(3, 0, 0)), (3, 3));
    assert_eq!((m.no(2, 48, 0), m.no(4, 15, 0), m.no(2, 1, 0), m.no(4, 7, 0)), (5, 5, 6, 6));
}

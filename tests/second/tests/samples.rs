//! Worked runs, and the program's output.

mod support;

use second::hex::from_hex;
use second::program_output;
use support::{after_nine, journal, nine, Machine};

#[test]
fn fresh_answers() {
    let mut m = Machine::fresh();
    assert_eq!(m.no(0, 0, 0), 0);
    assert_eq!(m.give(&[0; 9]), (2, 0));
    assert_eq!(m.no(16, 0, 0), 2);
    assert_eq!(m.no(14, 15, 0), 3);
    assert_eq!(m.no(14, 16, 0), 2);
    assert_eq!(m.no(1, 46, 0), 6);
    assert_eq!(m.no(1, 47, 0), 5);
    assert_eq!(m.no(1, 64, 0), 2);
    assert_eq!(m.no(12, 0, 0), 3);
}

#[test]
fn ret_ctrl_and_switch() {
    let mut m = Machine::fresh();
    assert_eq!((m.no(11, 0, 0), m.no(11, 0, 0)), (0, 3));
    let mut m = Machine::fresh();
    assert_eq!((m.no(11, 0, 0), m.no(8, 1, 0)), (0, 0));
    assert_eq!(m.0.active, 1);
    assert_eq!(m.no(8, 4, 0), 2);
}

#[test]
fn calls_that_cannot_be_served() {
    let mut m = Machine::fresh();
    assert_eq!((m.hcall(4, 0, 0), m.no(13, 0, 0)), (0, 10));
    let mut m = Machine::fresh();
    assert_eq!((m.hcall(5, 0, 0), m.no(14, 0, 0)), (0, 12));
}

#[test]
fn after_the_nine_records() {
    let m = after_nine();
    assert_eq!(m.memory(8), 0);
    assert_eq!(m.line(0, 0), Some((0, 8, 300)));
    assert_eq!(m.line(0, 1), None);
    assert_eq!(m.history(0), 1);
    assert!(m.cacheable(8));
    assert_eq!(m.slot(0), Some((0, 8)));
}

#[test]
fn then_mapped_at_one_too() {
    let mut m = after_nine();
    m.served(1, 1, 1);
    assert_eq!(m.memory(8), 300);
    assert!(!m.cacheable(8));
    assert_eq!(m.line(0, 0), None);
    assert_eq!(m.history(0), 1);
    assert_eq!(m.read(1), 300);
    assert_eq!(m.read(0), 300);
    assert!((0..8).all(|set| m.line(set, 0).is_none() && m.line(set, 1).is_none()));
}

#[test]
fn third_takes_out_the_first() {
    let mut m = Machine::fresh();
    for (pa, va) in [(1, 0), (2, 8), (3, 16)] {
        m.served(4, pa, 0);
        m.served(1, va, pa);
    }
    m.write(0, 70);
    assert_eq!((m.line(0, 0), m.history(0)), (Some((0, 8, 70)), 1));
    assert_eq!(m.read(0), 70);
    assert_eq!(m.history(0), 1);
    m.read(8);
    assert_eq!((m.line(0, 1), m.history(0)), (Some((8, 9, 0)), 0));
    assert_eq!(m.memory(8), 0);
    m.read(16);
    assert_eq!((m.line(0, 0), m.history(0)), (Some((16, 10, 0)), 1));
    assert_eq!(m.line(0, 1), Some((8, 9, 0)));
    assert_eq!(m.memory(8), 70);
    assert_eq!(m.read(0), 70);
    assert_eq!((m.line(0, 1), m.history(0)), (Some((0, 8, 70)), 0));
}

#[test]
fn fifty_six_pins() {
    let mut m = Machine::fresh();
    for guest in 0..4 {
        if guest > 0 {
            m.go_to(guest);
        }
        for pa in 1..15 {
            m.served(4, pa, pa % 2);
        }
    }
    assert_eq!(m.0.free, 0);
    assert_eq!(m.call(4, 15, 0), 11);
    m.ok(8, 2, 0);
    m.ok(12, 0, 0);
    let page = m.0.guests[2].physical[3];
    m.served(5, 3, 0);
    m.served(4, 15, 0);
    assert_eq!(m.0.guests[2].physical[15], page);
    assert_eq!(m.0.free, 0);
}

/// Runs records of kind, a, b and call from the fresh machine.
fn answers(records: &[[u8; 4]]) -> Vec<u8> {
    let mut m = Machine::fresh();
    records.iter().map(|[kind, a, b, call]| m.give(&[*kind, *a, *b, *call, 0, 0, 0, 0]).0).collect()
}

#[test]
fn bytes_that_are_no_record() {
    let mut m = Machine::fresh();
    for record in ["1000000000000000", "0100000001000000", "0A00000600000000", "0608010000000000"] {
        assert_eq!(m.give(&from_hex(record).unwrap()), (2, 0), "{record}");
    }
}

#[test]
fn del_of_what_is_not_mapped() {
    let records = [
        [10, 9, 0, 2],
        [7, 9, 0, 0],
        [12, 0, 0, 0],
        [15, 0, 0, 0],
        [12, 0, 0, 0],
        [10, 7, 0, 2],
        [7, 7, 0, 0],
        [15, 0, 0, 0],
        [12, 0, 0, 0],
        [10, 15, 0, 2],
        [7, 15, 0, 0],
    ];
    assert_eq!(answers(&records), [0, 6, 4, 0, 0, 0, 6, 0, 0, 0, 5]);
}

/// Guest 0 asks for del where nothing is mapped, and runs on once the call is dropped.
fn misses(m: &mut Machine, va: u8) {
    assert_eq!(m.call(2, va, 0), 6);
    m.ok(15, 0, 0);
    m.ok(12, 0, 0);
}

#[test]
fn del_of_what_only_another_table_maps() {
    let mut m = after_nine();
    m.served(4, 2, 1);
    m.served(3, 2, 0);
    misses(&mut m, 0);
    m.served(3, 0, 0);
    assert_eq!(m.read(0), 300);
}

#[test]
fn del_twice() {
    let mut m = after_nine();
    m.served(2, 0, 0);
    misses(&mut m, 0);
    m.served(1, 0, 1);
    assert_eq!(m.read(0), 300);
    m.served(2, 0, 0);
}

#[test]
fn a_refused_call_is_declined() {
    let records = [
        [15, 4, 0, 0],
        [15, 0, 0, 0],
        [10, 0, 0, 4],
        [13, 0, 0, 0],
        [12, 0, 0, 0],
        [15, 1, 0, 0],
        [15, 0, 0, 0],
        [13, 0, 0, 0],
        [15, 0, 0, 0],
        [12, 0, 0, 0],
    ];
    assert_eq!(answers(&records), [2, 3, 0, 10, 4, 4, 0, 4, 4, 0]);
}

#[test]
fn a_call_left_behind_is_declined() {
    let records = [
        [10, 0, 1, 4],
        [8, 1, 0, 0],
        [12, 0, 0, 0],
        [11, 0, 0, 0],
        [8, 0, 0, 0],
        [15, 0, 0, 0],
        [8, 0, 0, 0],
        [12, 0, 0, 0],
    ];
    assert_eq!(answers(&records), [0, 0, 0, 0, 4, 0, 0, 0]);
}

#[test]
fn the_named_guests_call_alone_is_declined() {
    let records = [
        [10, 9, 0, 2],
        [8, 2, 0, 0],
        [12, 0, 0, 0],
        [10, 5, 0, 3],
        [15, 0, 0, 0],
        [1, 0, 0, 0],
        [12, 0, 0, 0],
        [15, 2, 0, 0],
        [12, 0, 0, 0],
        [1, 0, 0, 0],
    ];
    assert_eq!(answers(&records), [0, 0, 0, 0, 0, 3, 4, 0, 0, 6]);
}

#[test]
fn the_three_records_without_looking() {
    let records = [
        [11, 0, 0, 0],
        [15, 3, 0, 0],
        [8, 3, 0, 0],
        [12, 0, 0, 0],
        [10, 47, 0, 2],
        [8, 1, 0, 0],
        [15, 3, 0, 0],
        [8, 3, 0, 0],
        [12, 0, 0, 0],
    ];
    assert_eq!(answers(&records), [0, 4, 0, 0, 0, 0, 0, 0, 0]);
}

#[test]
fn program_prints_the_nine_records() {
    let text = "RPJ 1\n1 0 0\n2 0 0\n3 0 0\n4 0 0\n5 0 0\n6 0 0\n7 0 0\n8 0 300\n9 6 0\n\
                done 8 refused 1\n";
    assert_eq!(program_output(&journal(&nine())), text);
}

#[test]
fn program_prints_what_is_left_over() {
    let mut bytes = journal(&nine()[..2]);
    bytes.extend([1, 2, 3]);
    assert_eq!(program_output(&bytes), "RPJ 1\n1 0 0\n2 0 0\ncut 3\ndone 2 refused 0\n");
}

#[test]
fn program_prints_a_refusal_alone() {
    assert_eq!(program_output(b""), "refused 13\n");
    assert_eq!(program_output(b"RPJ\x02\x00\x00\x00\x00\x01"), "refused 13\n");
}

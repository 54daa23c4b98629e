//! The first broken place of rule 10: field by field, and then guests, ways and slots.

mod support;

use second::{Policy, State};
use support::base::*;
use support::named::*;

/// What rule 10 names of the base with these bytes changed: part, number and words.
fn ten(changes: &[(usize, u8)]) -> Option<(u8, u16, String)> {
    let mut bytes = base(Policy::WriteBack);
    changes.iter().for_each(|(at, byte)| bytes[*at] = *byte);
    let found = named(&State::from_bytes(&bytes)).into_iter().find(|(rule, ..)| *rule == 10);
    found.map(|(_, part, number, words)| (part, number, words))
}

/// By number: the field, where it starts, how many places it has, and what its numbers are below.
const FIELDS: [(u8, &str, usize, usize, u8); 17] = [
    (0, "owner", OWNER, 64, 6),
    (1, "kind", KIND, 64, 3),
    (2, "cacheable", MARK, 64, 2),
    (3, "entry", ENTRY, 4096, 65),
    (4, "physical", PHYSICAL, 64, 65),
    (6, "current", CURRENT, 4, 16),
    (7, "call", CALL, 4, 6),
    (8, "callA", CALL_A, 4, 64),
    (9, "callB", CALL_B, 4, 16),
    (10, "active", ACTIVE, 1, 4),
    (11, "mode", MODE, 1, 2),
    (12, "lineAddress", LINE, 16, 64),
    (13, "linePage", LINE_PAGE, 16, 65),
    (14, "history", HISTORY, 8, 2),
    (15, "slotAddress", SLOT, 8, 64),
    (16, "slotPage", SLOT_PAGE, 8, 65),
    (19, "policy", POLICY, 1, 2),
];

/// Every place of every field, and no number below the bound.
#[test]
fn each_place_of_each_field() {
    for (part, name, start, places, bound) in FIELDS {
        for place in (0..places).filter(|place| places < 100 || place % 65 == 0) {
            let named = |byte: u8| ten(&[(start + place, byte)]);
            let expected = Some((part, place as u16, format!("{name} {place}")));
            assert_eq!(named(bound), expected);
            assert_eq!(named(255), expected);
            let below = named(bound - 1).map(|(part, ..)| part);
            assert!(below.is_none_or(|part| part >= 20), "{name} {place}: part {below:?}");
        }
    }
}

/// Of two places of a field the first, and of two fields the first, wherever their places are.
#[test]
fn of_two_numbers_the_first() {
    for (i, (part, name, start, places, _)) in FIELDS.into_iter().enumerate() {
        let last = places - 1;
        let both = [(start + last, 255), (start + last / 2, 255)];
        assert_eq!(ten(&both), Some((part, last as u16 / 2, format!("{name} {}", last / 2))));
        for (_, _, later, ..) in &FIELDS[i + 1..] {
            let both = [(start + last, 255), (*later, 255)];
            assert_eq!(ten(&both), Some((part, last as u16, format!("{name} {last}"))));
        }
    }
}

#[test]
fn guests_ways_and_slots() {
    for guest in 0..4 {
        let expected = Some((20, guest as u16, format!("guest {guest}")));
        assert_eq!(ten(&[(CALL_A + guest, 1)]), expected);
        assert_eq!(ten(&[(CALL + guest, 4), (CALL_B + guest, 2)]), expected);
    }
    // ways and slots that are empty: all but lines 0, 1 and 14, and slot 0
    for line in (2..14).chain([15]) {
        let words = format!("set {} way {}", line / 2, line % 2);
        let expected = Some((21, line as u16, words));
        assert_eq!(ten(&[(LINE + line, 1)]), expected);
        assert_eq!(ten(&[(LINE_VALUE + 4 * line + 3, 1)]), expected);
    }
    assert_eq!(ten(&[(LINE_PAGE, 0)]), Some((21, 0, "set 0 way 0".into())));
    for slot in 1..8 {
        assert_eq!(ten(&[(SLOT + slot, 63)]), Some((22, slot as u16, format!("slot {slot}"))));
    }
    assert_eq!(ten(&[(SLOT_PAGE, 0), (SLOT, 8)]), Some((22, 0, "slot 0".into())));
    let all = [(SLOT + 1, 1), (LINE + 15, 1), (CALL_A + 3, 1)];
    assert_eq!(ten(&all), Some((20, 3, "guest 3".into())));
    assert_eq!(ten(&all[..2]), Some((21, 15, "set 7 way 1".into())));
}

/// They are as large as they can be.
#[test]
fn no_bytes_of_free_memory_and_line_are_past() {
    let lines =
        [0, 1, 14].into_iter().flat_map(|line| LINE_VALUE + 4 * line..LINE_VALUE + 4 * line + 4);
    for at in (FREE..FREE + 8).chain(MEMORY..MEMORY + 256).chain(lines) {
        assert_eq!(ten(&[(at, 255)]), None);
    }
}

/// The fields in their order, then guests, ways and slots.
#[test]
fn rule_10_in_its_order() {
    let parts: [((usize, u8), &str, u8); 14] = [
        ((SLOT + 5, 63), "slot 5", 22),
        ((LINE + 15, 63), "set 7 way 1", 21),
        ((CALL_B + 3, 15), "guest 3", 20),
        ((POLICY, 2), "policy 0", 19),
        ((HISTORY, 255), "history 0", 14),
        ((LINE + 4, 64), "lineAddress 4", 12),
        ((MODE, 2), "mode 0", 11),
        ((CALL_B + 2, 16), "callB 2", 9),
        ((CALL_A + 3, 64), "callA 3", 8),
        ((CALL + 1, 6), "call 1", 7),
        ((entry(20, 3), 0), "call 1", 7),
        ((MARK + 12, 2), "cacheable 12", 2),
        ((KIND + 12, 0), "cacheable 12", 2),
        ((OWNER + 20, 6), "owner 20", 0),
    ];
    let mut bytes = base(Policy::WriteBack);
    for ((at, byte), words, part) in parts {
        bytes[at] = byte;
        let found = named(&State::from_bytes(&bytes));
        let ten = found.into_iter().find(|(rule, ..)| *rule == 10);
        assert_eq!(ten.map(|(_, part, _, words)| (part, words)), Some((part, words.into())));
    }
}

#[test]
fn rule_10_arguments() {
    let of = |call: u8, a: u8, b: u8| [(CALL + 1, call), (CALL_A + 1, a), (CALL_B + 1, b)];
    // below 64 and 16 whatever the call is, and then by the call
    names(&of(0, 64, 0), &[(10, 8, 1, "callA 1")]);
    names(&of(0, 63, 15), &[(10, 20, 1, "guest 1")]);
    names(&of(0, 0, 16), &[(10, 9, 1, "callB 1")]);
    names(&of(6, 63, 15), &[(10, 7, 1, "call 1")]);
    names(&of(6, 64, 16), &[(10, 7, 1, "call 1")]);
    for (call, a, b, part, words) in [
        (1, 64, 0, 8, "callA 1"),
        (1, 0, 16, 9, "callB 1"),
        (2, 63, 1, 20, "guest 1"),
        (3, 16, 0, 20, "guest 1"),
        (3, 63, 0, 20, "guest 1"),
        (3, 64, 0, 8, "callA 1"),
        (4, 16, 0, 20, "guest 1"),
        (4, 0, 2, 20, "guest 1"),
        (4, 0, 15, 20, "guest 1"),
        (4, 0, 16, 9, "callB 1"),
        (5, 16, 0, 20, "guest 1"),
        (5, 15, 1, 20, "guest 1"),
    ] {
        names(&of(call, a, b), &[(1, 0, 1, "guest 1"), (10, part, 1, words)]);
    }
    for (call, a, b) in [(1, 63, 15), (2, 63, 0), (3, 15, 0), (4, 15, 1), (5, 15, 0)] {
        names(&of(call, a, b), &[]);
    }
}

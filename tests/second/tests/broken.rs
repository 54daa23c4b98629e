//! The first place at which each rule is broken, on states damaged at chosen bytes.

mod support;

use second::{first_broken, rules, Judged, Policy, State, RULES, STATE_BYTES};
use support::base::*;
use support::named::*;

#[test]
fn nothing_is_named_on_valid_states() {
    names(&[], &[]);
    names_through(&[], &[]);
}

#[test]
fn rule_1() {
    names(&[(CALL, 1)], &[(1, 0, 0, "guest 0")]);
    names(
        &[(ACTIVE, 3), (SLOT_PAGE, 0), (LINE_PAGE + 14, 0), (LINE + 14, 0), (CALL + 3, 2)],
        &[(1, 0, 3, "guest 3")],
    );
    let past = [(1, 0, 1, "guest 1"), (10, 20, 1, "guest 1")];
    names(&[(CALL + 1, 3), (CALL_A + 1, 16)], &past);
    names(&[(CALL + 1, 3), (CALL_A + 1, 16), (CALL + 3, 5), (CALL_B + 3, 1)], &past);
    // of two guests the first, whichever is active
    let both = [(1, 0, 0, "guest 0"), (10, 20, 3, "guest 3")];
    names(&[(CALL, 2), (CALL + 3, 4), (CALL_B + 3, 2)], &both);
    // no mode that is running, no guest that is active, no call
    names(&[(CALL, 1), (MODE, 2)], &[(10, 11, 0, "mode 0")]);
    names(&[(CALL, 6)], &[(10, 7, 0, "call 0")]);
    names(&[(MODE, 0), (CALL, 1)], &[]);
}

#[test]
fn rule_2() {
    names(&[(FREE, 1)], &[(2, 0, 0, "page 0")]);
    names(&[(MEMORY, 1)], &[(2, 0, 0, "page 0")]);
    names(&[(FREE + 7, 0x7F)], &[(2, 0, 63, "page 63")]);
    names(&[(KIND + 5, 0), (MARK + 7, 0), (MEMORY + 4 * 20, 1)], &[(2, 0, 5, "page 5")]);
    names(&[(MARK + 20, 0), (FREE + 3, 0xFE)], &[(2, 0, 20, "page 20")]);
    names(&[(OWNER + 20, 1)], &[(2, 0, 20, "page 20")]);
    names(&[(OWNER + 6, 9)], &[(2, 0, 6, "page 6"), (10, 0, 6, "owner 6")]);
    names(&[(OWNER + 20, 9), (FREE + 2, 0xEF)], &[(10, 0, 20, "owner 20")]);
}

#[test]
fn rule_3() {
    // both addresses of a page that stands twice break it; of each two the first is named
    names(&[(PHYSICAL + 6, 13)], &[(3, 0, 5, "guest 0 physical 5")]);
    names(&[(PHYSICAL + 15, 13), (PHYSICAL + 6, 12)], &[(3, 0, 4, "guest 0 physical 4")]);
    names(&[(PHYSICAL + 6, 5)], &[(3, 0, 6, "guest 0 physical 6")]);
    names(&[(PHYSICAL + 19, 15)], &[(3, 0, 18, "guest 1 physical 2")]);
    // guest by guest
    names(&[(PHYSICAL + 6, 5), (PHYSICAL + 20, 5)], &[(3, 0, 6, "guest 0 physical 6")]);
    names(
        &[(PHYSICAL + 63, 255)],
        &[(3, 0, 63, "guest 3 physical 15"), (10, 4, 63, "physical 63")],
    );
    // the page itself stands in the second part, and by its own guest's addresses alone
    names(&[(PHYSICAL + 5, 0)], &[(3, 1, 12, "page 12")]);
    names(&[(OWNER + 63, 2), (KIND + 63, 1), (FREE + 7, 0x7F)], &[(3, 1, 63, "page 63")]);
    names(&[(PHYSICAL + 5, 0), (PHYSICAL + 20, 13)], &[(3, 0, 20, "guest 1 physical 4")]);
    // an address before a page, whatever their numbers are
    names(
        &[(PHYSICAL, 0), (PHYSICAL + 63, 9), (SLOT_PAGE, 0)],
        &[(3, 0, 63, "guest 3 physical 15"), (5, 0, 0, "guest 0"), (9, 0, 0, "set 7 way 0")],
    );
    names(
        &[(PHYSICAL, 0), (SLOT_PAGE, 0)],
        &[(3, 1, 0, "page 0"), (5, 0, 0, "guest 0"), (9, 0, 0, "set 7 way 0")],
    );
}

#[test]
fn rule_4() {
    names(&[(entry(63, 63), 1)], &[(4, 0, 4095, "page 63 address 63")]);
    names(&[(entry(0, 15), 13), (entry(2, 0), 1)], &[(4, 0, 15, "page 0 address 15")]);
    names(&[(entry(12, 3), 9), (entry(20, 0), 9)], &[(4, 0, 771, "page 12 address 3")]);
    names(
        &[(entry(11, 46), 13), (entry(11, 47), 13)],
        &[(4, 0, 751, "page 11 address 47"), (6, 0, 12, "page 12")],
    );
    // the rules that an entry without a page breaks at the lines and slots of it too
    names(
        &[(entry(0, 0), 65)],
        &[
            (4, 0, 0, "page 0 address 0"),
            (7, 0, 0, "set 0 way 0"),
            (8, 0, 0, "slot 0"),
            (10, 3, 0, "entry 0"),
        ],
    );
}

#[test]
fn rule_4_addresses_and_owners() {
    for (va, words) in [(15, "page 11 address 15"), (48, "page 11 address 48")] {
        names(&[(entry(11, va), 13)], &[(4, 0, 704 + va as u16, words)]);
    }
    for va in [7, 14, 16, 40, 46] {
        names(&[(entry(11, va), 13)], &[]);
    }
    // page by page
    names(&[(entry(12, 9), 9), (entry(20, 3), 9)], &[(4, 0, 777, "page 12 address 9")]);
    // none and the host are owners as guests are, and a number out of range is none
    let unowned = [(KIND + 20, 2), (KIND + 21, 1), (entry(20, 3), 22)];
    names(&unowned, &[(2, 0, 20, "page 20")]);
    names(&[(KIND + 4, 2), (entry(4, 3), 6)], &[(2, 0, 4, "page 4")]);
    let odd = [(OWNER + 20, 6), (OWNER + 21, 6), (FREE + 2, 0xCF)];
    let both = [(4, 0, 1283, "page 20 address 3"), (10, 0, 20, "owner 20")];
    names(&[&unowned[..], &odd].concat(), &both);
}

#[test]
fn rule_5() {
    names(&[(CURRENT + 1, 5)], &[(5, 0, 1, "guest 1")]);
    names(&[(CURRENT + 3, 16)], &[(5, 0, 3, "guest 3"), (10, 6, 3, "current 3")]);
    names(
        &[(CURRENT + 2, 1), (CURRENT + 3, 255)],
        &[(5, 0, 2, "guest 2"), (10, 6, 3, "current 3")],
    );
    // no table in force: each TLB entry breaks 8, and set 7 must be empty
    for byte in [5, 6, 16, 255] {
        let mut expected =
            vec![(5, 0, 0, "guest 0"), (8, 0, 0, "slot 0"), (9, 0, 0, "set 7 way 0")];
        expected.extend((byte > 15).then_some((10, 6, 0, "current 0")));
        names(&[(CURRENT, byte)], &expected);
    }
}

#[test]
fn rule_6() {
    names(&[(MARK + 10, 1)], &[(6, 0, 10, "page 10")]);
    names(&[(MARK + 13, 0)], &[(6, 0, 13, "page 13")]);
    // in the order of the pages: the entries of page 12 stand before those of 10
    let out_of_order = [(entry(0, 2), 13), (entry(0, 3), 13), (entry(0, 1), 0), (entry(11, 1), 11)];
    names(&out_of_order, &[(6, 0, 12, "page 12")]);
    let both = [&out_of_order[..], &[(MARK + 10, 1)]].concat();
    names(&both, &[(6, 0, 10, "page 10")]);
    // any page at 7, and pages at the ends
    names(
        &[(entry(11, 7), 1), (MARK, 0)],
        &[(2, 0, 0, "page 0"), (4, 0, 711, "page 11 address 7"), (6, 0, 0, "page 0")],
    );
    names(
        &[(entry(11, 7), 64), (MARK + 63, 2)],
        &[
            (2, 0, 63, "page 63"),
            (4, 0, 711, "page 11 address 7"),
            (6, 0, 63, "page 63"),
            (10, 2, 63, "cacheable 63"),
        ],
    );
}

#[test]
fn rule_7() {
    // one key in both ways: both are wrong, and in another set too
    names(&[(LINE + 1, 0), (LINE_PAGE + 1, 9)], &[(7, 0, 0, "set 0 way 0")]);
    names(&[(LINE_PAGE + 10, 9)], &[(7, 0, 0, "set 0 way 0")]);
    names(&[(LINE + 5, 8), (LINE_PAGE + 5, 15)], &[(7, 0, 1, "set 0 way 1")]);
    // another address, or another page, is another key
    names(&[(LINE + 2, 8), (LINE_PAGE + 2, 9)], &[(7, 0, 2, "set 1 way 0")]);
    names(&[(LINE + 9, 0), (LINE_PAGE + 9, 15)], &[(7, 0, 9, "set 4 way 1")]);
    names(
        &[(LINE + 15, 7), (LINE_PAGE + 15, 65)],
        &[(7, 0, 15, "set 7 way 1"), (9, 0, 1, "set 7 way 1"), (10, 13, 15, "linePage 15")],
    );
    names(&[(LINE, 64)], &[(7, 0, 0, "set 0 way 0"), (10, 12, 0, "lineAddress 0")]);
    // an empty way with an address is no line
    names(&[(LINE + 2, 1), (LINE + 3, 1)], &[(10, 21, 2, "set 1 way 0")]);
}

#[test]
fn rule_8() {
    names(&[(SLOT_PAGE, 13)], &[(8, 0, 0, "slot 0")]);
    names(&[(SLOT_PAGE + 3, 9), (SLOT + 3, 3), (SLOT_PAGE + 7, 9)], &[(8, 0, 3, "slot 3")]);
    names(
        &[(SLOT_PAGE + 7, 255), (SLOT + 7, 7)],
        &[(8, 0, 7, "slot 7"), (10, 16, 7, "slotPage 7")],
    );
    names(&[(SLOT, 64)], &[(8, 0, 0, "slot 0"), (10, 15, 0, "slotAddress 0")]);
    // each way to have no table in force
    let lost: [(&[(usize, u8)], &[Named]); 4] = [
        (&[(ACTIVE, 4)], &[(10, 10, 0, "active 0")]),
        (&[(PHYSICAL, 0)], &[(3, 1, 0, "page 0"), (5, 0, 0, "guest 0")]),
        (
            &[(PHYSICAL, 65)],
            &[(3, 0, 0, "guest 0 physical 0"), (5, 0, 0, "guest 0"), (10, 4, 0, "physical 0")],
        ),
        (
            &[(KIND, 1)],
            &[(4, 0, 0, "page 0 address 0"), (5, 0, 0, "guest 0"), (7, 0, 0, "set 0 way 0")],
        ),
    ];
    for (changes, others) in lost {
        let mut expected = [others, &[(8, 0, 0, "slot 0"), (9, 0, 0, "set 7 way 0")]].concat();
        expected.sort();
        names(changes, &expected);
    }
}

#[test]
fn rule_9() {
    names(&[(HISTORY + 7, 1)], &[(9, 1, 0, "set 7 history")]);
    names(&[(HISTORY + 7, 2)], &[(9, 1, 0, "set 7 history"), (10, 14, 7, "history 7")]);
    names(&[(LINE + 15, 7), (LINE_PAGE + 15, 14)], &[(9, 0, 1, "set 7 way 1")]);
    names(&[(LINE + 15, 7), (LINE_PAGE + 15, 14), (HISTORY + 7, 1)], &[(9, 0, 1, "set 7 way 1")]);
    names(&[(LINE_PAGE + 14, 14), (HISTORY + 7, 1)], &[(9, 0, 0, "set 7 way 0")]);
    names(&[(LINE_PAGE + 14, 0), (LINE + 14, 0)], &[(9, 0, 0, "set 7 way 0")]);
    names(&[(LINE + 14, 15)], &[(7, 0, 14, "set 7 way 0"), (9, 0, 0, "set 7 way 0")]);
}

#[test]
fn rule_11() {
    names(&[(POLICY, 1)], &[(11, 0, 0, "set 0 way 0")]);
    names(&[(POLICY, 2)], &[(10, 19, 0, "policy 0")]);
    names_through(&[(LINE_VALUE + 4, 6)], &[(11, 0, 1, "set 0 way 1")]);
    names_through(&[(LINE_VALUE + 56, 6)], &[(11, 0, 14, "set 7 way 0")]);
    names_through(&[(MEMORY + 36, 6), (LINE_VALUE + 5, 1)], &[(11, 0, 1, "set 0 way 1")]);
    names_through(
        &[(LINE + 15, 7), (LINE_PAGE + 15, 14), (LINE_VALUE + 60, 1)],
        &[(9, 0, 1, "set 7 way 1"), (11, 0, 15, "set 7 way 1")],
    );
    // a line that leads nowhere is passed over, and the next is named
    names_through(
        &[(LINE_PAGE, 65), (LINE_VALUE, 9), (LINE_VALUE + 4, 6)],
        &[(7, 0, 0, "set 0 way 0"), (10, 13, 0, "linePage 0"), (11, 0, 1, "set 0 way 1")],
    );
}

#[test]
fn everything_255_and_everything_0() {
    all_named(
        &[255; STATE_BYTES],
        &[
            (2, 0, 0, "page 0"),
            (3, 0, 0, "guest 0 physical 0"),
            (4, 0, 0, "page 0 address 0"),
            (5, 0, 0, "guest 0"),
            (7, 0, 0, "set 0 way 0"),
            (8, 0, 0, "slot 0"),
            (9, 0, 0, "set 7 way 0"),
            (10, 0, 0, "owner 0"),
        ],
    );
    all_named(&[0; STATE_BYTES], &[(2, 0, 0, "page 0"), (5, 0, 0, "guest 0")]);
}

#[test]
fn only_1_to_11_are_rules() {
    let state = State::from_bytes(&base(Policy::WriteBack));
    for number in (12..=255).chain([0]) {
        assert_eq!(first_broken(&state, number), Judged::NoSuchRule);
        assert_eq!(first_broken(&state, number).bytes(), [2, 0, 0, 0]);
    }
    for number in 1..=11 {
        assert_eq!(first_broken(&state, number).bytes(), [0; 4]);
    }
    assert_eq!(rules(&state), [true; RULES]);
}

#[test]
fn bytes_of_a_place() {
    let mut bytes = base(Policy::WriteBack);
    bytes[entry(63, 63)] = 255;
    let state = State::from_bytes(&bytes);
    assert_eq!(first_broken(&state, 4).bytes(), [1, 0, 255, 15]);
    assert_eq!(first_broken(&state, 10).bytes(), [1, 3, 255, 15]);
    bytes[HISTORY + 7] = 1;
    assert_eq!(first_broken(&State::from_bytes(&bytes), 9).bytes(), [1, 1, 0, 0]);
}

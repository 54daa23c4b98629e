//! Each rule by itself, on states damaged at chosen bytes.

mod support;

use second::{damage, rules, valid, Policy, State, RULES};
use support::base::*;

/// Changes bytes of the write-back base; exactly the named rules must be broken.
fn breaks(changes: &[(usize, u8)], expected: &[usize]) {
    breaks_on(Policy::WriteBack, changes, expected);
}

/// The same of the base under write-through, where the line of 0 is not dirty.
fn breaks_through(changes: &[(usize, u8)], expected: &[usize]) {
    breaks_on(Policy::WriteThrough, changes, expected);
}

fn breaks_on(policy: Policy, changes: &[(usize, u8)], expected: &[usize]) {
    let mut bytes = base(policy);
    for (at, byte) in changes {
        bytes[*at] = *byte;
    }
    let state = State::from_bytes(&bytes);
    let holds = rules(&state);
    let broken: Vec<usize> = (1..=RULES).filter(|rule| !holds[rule - 1]).collect();
    assert_eq!(broken, expected, "{changes:?}");
    assert_eq!(valid(&state), expected.is_empty());
}

#[test]
fn rule_1_calls() {
    breaks(&[(CALL, 1)], &[1]);
    breaks(&[(CALL + 1, 1)], &[]);
    breaks(&[(CALL + 1, 1), (CALL_A + 1, 63), (CALL_B + 1, 15)], &[]);
    breaks(&[(CALL, 6)], &[10]);
    breaks(&[(CALL + 1, 6), (CALL_A + 1, 200), (CALL_B + 1, 200)], &[10]);
    breaks(&[(CALL + 1, 1), (CALL_A + 1, 64)], &[1, 10]);
    breaks(&[(CALL + 1, 1), (CALL_B + 1, 16)], &[1, 10]);
    breaks(&[(CALL + 1, 2), (CALL_B + 1, 1)], &[1, 10]);
    breaks(&[(CALL + 1, 3), (CALL_A + 1, 16)], &[1, 10]);
    breaks(&[(CALL + 1, 4), (CALL_B + 1, 1)], &[]);
    breaks(&[(CALL + 1, 4), (CALL_B + 1, 2)], &[1, 10]);
    breaks(&[(CALL + 1, 5), (CALL_B + 1, 1)], &[1, 10]);
    breaks(&[(MODE, 0), (CALL, 3)], &[]);
    breaks(&[(MODE, 2), (CALL, 3)], &[10]);
    breaks(&[(ACTIVE, 4), (CALL, 3)], &[8, 9, 10]);
}

#[test]
fn rule_2_pages_of_host_and_nobody() {
    breaks(&[(MEMORY + 4 * 4 + 3, 1)], &[2]);
    breaks(&[(MARK + 4, 0)], &[2]);
    breaks(&[(MARK + 7, 2)], &[2, 10]);
    breaks(&[(KIND + 5, 0)], &[2]);
    breaks(&[(OWNER + 4, 6)], &[2, 10]);
    breaks(&[(OWNER + 20, 1)], &[2]);
    breaks(&[(OWNER + 20, 1), (KIND + 20, 1), (FREE + 2, 0xEF)], &[2]);
    breaks(&[(KIND + 20, 1)], &[2]);
    breaks(&[(KIND + 20, 3)], &[2, 10]);
    breaks(&[(MARK + 20, 0)], &[2]);
    breaks(&[(MEMORY + 4 * 20, 1)], &[2]);
    breaks(&[(FREE + 2, 0xEF)], &[2]);
    breaks(&[(FREE + 1, 0x81)], &[2]);
}

#[test]
fn rule_2_odd_owners_and_tables() {
    breaks(&[(OWNER + 20, 6)], &[2, 10]);
    let nobodys = [(OWNER + 20, 6), (FREE + 2, 0xEF)];
    breaks(&nobodys, &[10]);
    let with = |more: &[(usize, u8)]| [&nobodys[..], more].concat();
    breaks(&with(&[(KIND + 20, 1), (MEMORY + 80, 5), (MARK + 20, 0)]), &[10]);
    breaks(&with(&[(KIND + 20, 2)]), &[10]);
    breaks(&with(&[(KIND + 20, 2), (MEMORY + 80, 5)]), &[2, 10]);
    breaks(&[(KIND + 12, 0)], &[2]);
    breaks(&[(KIND + 12, 3)], &[2, 10]);
    breaks(&[(KIND + 12, 2)], &[]);
    breaks(&[(KIND + 12, 2), (MARK + 12, 0)], &[2]);
    breaks(&[(MEMORY + 4 * 11, 1)], &[2]);
    breaks(&[(MARK + 11, 0)], &[2]);
}

#[test]
fn rule_3_physical_addresses() {
    breaks(&[(PHYSICAL + 5, 0)], &[3]);
    breaks(&[(PHYSICAL + 6, 13)], &[3]);
    breaks(&[(PHYSICAL + 6, 15)], &[3]);
    breaks(&[(PHYSICAL + 6, 5)], &[3]);
    breaks(&[(PHYSICAL + 6, 21)], &[3]);
    breaks(&[(PHYSICAL + 6, 65)], &[3, 10]);
    breaks(&[(OWNER + 12, 3)], &[3]);
    breaks(&[(OWNER + 12, 6)], &[3, 10]);
    breaks(&[(OWNER + 12, 6), (PHYSICAL + 5, 0)], &[10]);
    breaks(&[(PHYSICAL + 5, 0), (PHYSICAL + 6, 13)], &[]);
}

#[test]
fn rule_4_entries() {
    breaks(&[(entry(12, 3), 9)], &[4]);
    breaks(&[(entry(12, 7), 11)], &[4]);
    breaks(&[(entry(20, 0), 9)], &[4]);
    breaks(&[(entry(11, 15), 13)], &[4]);
    breaks(&[(entry(11, 48), 13)], &[4]);
    breaks(&[(entry(11, 46), 13)], &[]);
    breaks(&[(entry(0, 8), 15)], &[4]);
    breaks(&[(entry(0, 3), 15)], &[4, 6]);
    breaks(&[(entry(0, 3), 5)], &[4]);
    breaks(&[(entry(0, 3), 12)], &[4]);
    breaks(&[(entry(0, 3), 21)], &[4]);
    breaks(&[(entry(0, 3), 65)], &[4, 10]);
    breaks(&[(entry(0, 7), 65)], &[4, 7, 9, 10]);
}

#[test]
fn rule_4_owners() {
    let odd = [(OWNER + 20, 6), (OWNER + 21, 6), (FREE + 2, 0xCF), (KIND + 20, 2), (KIND + 21, 1)];
    breaks(&odd, &[10]);
    breaks(&[&odd[..], &[(entry(20, 3), 22)]].concat(), &[4, 10]);
    // None and host are owners in range: equal, they are the same.
    breaks(&[(KIND + 20, 2), (KIND + 21, 1), (entry(20, 3), 22)], &[2]);
    breaks(&[(KIND + 4, 2), (entry(4, 3), 6)], &[2]);
    breaks(&[(KIND + 20, 2), (KIND + 21, 1), (OWNER + 21, 6), (entry(20, 3), 22)], &[2, 4, 10]);
}

#[test]
fn rule_5_current_tables() {
    breaks(&[(CURRENT + 1, 5)], &[5]);
    breaks(&[(CURRENT + 1, 1)], &[5]);
    breaks(&[(CURRENT + 1, 16)], &[5, 10]);
    breaks(&[(CURRENT, 5)], &[5, 8, 9]);
    breaks(&[(CURRENT, 4)], &[8, 9]);
    breaks(&[(PHYSICAL + 32, 4)], &[3, 5]);
    breaks(&[(PHYSICAL + 32, 65)], &[3, 5, 10]);
    breaks(&[(KIND + 2, 1)], &[5]);
    breaks(&[(KIND + 2, 3)], &[2, 5, 10]);
    breaks(&[(OWNER + 2, 6)], &[3, 5, 10]);
}

#[test]
fn rule_6_sharing_and_stealth() {
    breaks(&[(MARK + 10, 1)], &[6]);
    breaks(&[(MARK + 10, 2)], &[10]);
    breaks(&[(MARK + 13, 0)], &[6]);
    breaks(&[(MARK + 13, 2)], &[6, 10]);
    breaks(&[(MARK + 9, 0)], &[6, 7]);
    breaks(&[(entry(11, 3), 10)], &[6]);
    breaks(&[(entry(11, 7), 10)], &[]);
    breaks(&[(entry(11, 0), 9)], &[]);
    breaks(&[(entry(11, 7), 1)], &[4]);
    breaks(&[(entry(11, 7), 1), (MARK, 0)], &[2, 4, 6]);
    breaks(&[(entry(11, 3), 3), (entry(11, 4), 3)], &[4]);
}

#[test]
fn rule_7_lines() {
    breaks(&[(LINE + 1, 0), (LINE_PAGE + 1, 9)], &[7]);
    breaks(&[(LINE, 64)], &[7, 10]);
    breaks(&[(LINE_PAGE, 65)], &[7, 10]);
    breaks(&[(LINE, 0), (LINE_PAGE, 0), (LINE_VALUE, 0), (LINE_PAGE + 2, 9)], &[7]);
    breaks(&[(LINE_PAGE + 2, 9)], &[7]);
    breaks(&[(LINE, 16)], &[7]);
    breaks(&[(LINE + 4, 2), (LINE_PAGE + 4, 5)], &[7]);
    breaks(&[(LINE + 2, 1), (LINE_PAGE + 2, 11)], &[7]);
    breaks(&[(MARK + 8, 0)], &[7]);
    breaks(&[(MARK + 8, 2)], &[7, 10]);
    breaks(&[(entry(0, 0), 0), (SLOT_PAGE, 0)], &[7]);
    breaks(&[(entry(0, 0), 0), (SLOT_PAGE, 0), (entry(11, 0), 9)], &[]);
    breaks(&[(entry(0, 0), 0), (SLOT_PAGE, 0), (entry(12, 0), 9)], &[4, 7]);
}

#[test]
fn rule_8_translation_buffer() {
    breaks(&[(SLOT_PAGE, 0), (SLOT_PAGE + 1, 9)], &[8]);
    breaks(&[(SLOT_PAGE, 13)], &[8]);
    breaks(&[(SLOT_PAGE, 65)], &[8, 10]);
    breaks(&[(SLOT, 64)], &[8, 10]);
    breaks(&[(SLOT + 2, 2), (SLOT_PAGE + 2, 13)], &[8]);
    breaks(&[(SLOT + 1, 9), (SLOT_PAGE + 1, 11)], &[]);
    breaks(&[(ACTIVE, 1)], &[8, 9]);
    breaks(&[(ACTIVE, 255)], &[8, 9, 10]);
    breaks(&[(CURRENT, 16)], &[5, 8, 9, 10]);
    breaks(&[(PHYSICAL, 0)], &[3, 5, 8, 9]);
    breaks(&[(entry(0, 0), 65), (SLOT_PAGE, 65)], &[4, 7, 8, 10]);
}

#[test]
fn rule_9_set_seven() {
    breaks(&[(HISTORY + 7, 1)], &[9]);
    breaks(&[(HISTORY + 7, 2)], &[9, 10]);
    breaks(&[(LINE + 14, 0), (LINE_PAGE + 14, 0)], &[9]);
    breaks(&[(LINE + 14, 0), (LINE_PAGE + 14, 0), (LINE + 15, 7), (LINE_PAGE + 15, 10)], &[9]);
    breaks(&[(LINE + 15, 7), (LINE_PAGE + 15, 14)], &[9]);
    breaks(&[(LINE_PAGE + 14, 14)], &[9]);
    breaks(&[(LINE + 15, 7), (LINE_PAGE + 15, 65)], &[7, 9, 10]);
    breaks(&[(LINE + 14, 15)], &[7, 9]);
    breaks(&[(LINE_VALUE + 4 * 14, 77)], &[]);
    breaks(&[(MODE, 0)], &[]);
    breaks(&[(MODE, 0), (HISTORY + 7, 1)], &[9]);
    // Another guest's table in force (rules 3 and 5 are broken, 9 looks at it).
    breaks(&[(PHYSICAL, 2), (SLOT_PAGE, 0), (LINE_PAGE + 14, 14)], &[3, 5]);
}

#[test]
fn rule_10_ranges_and_empty_places() {
    breaks(&[(SLOT + 1, 1)], &[10]);
    breaks(&[(LINE + 2, 1)], &[10]);
    breaks(&[(LINE_VALUE + 8 + 3, 1)], &[10]);
    breaks(&[(LINE + 15, 7)], &[10]);
    breaks(&[(HISTORY + 3, 1)], &[]);
    breaks(&[(HISTORY + 3, 2)], &[10]);
    breaks(&[(MARK + 12, 2)], &[10]);
    breaks(&[(MARK + 12, 0)], &[]);
    breaks(&[(MODE, 2)], &[10]);
    breaks(&[(CALL_A + 2, 1)], &[10]);
    breaks(&[(CALL_B, 1)], &[10]);
}

#[test]
fn rule_10_policies() {
    for byte in 2..=255 {
        // not write-through, so that the dirty line is nothing to rule 11
        breaks(&[(POLICY, byte)], &[10]);
        breaks_through(&[(POLICY, byte)], &[10]);
        breaks_through(&[(POLICY, byte), (LINE_VALUE, 6)], &[10]);
    }
}

#[test]
fn rule_11_values() {
    breaks(&[(LINE_VALUE, 6)], &[]);
    breaks(&[(POLICY, 1)], &[11]);
    breaks(&[(POLICY, 1), (MEMORY + 4 * 8, 5)], &[]);
    breaks(&[(POLICY, 1), (LINE_VALUE, 0)], &[]);
    breaks_through(&[], &[]);
    breaks_through(&[(POLICY, 0)], &[]);
    breaks_through(&[(POLICY, 0), (LINE_VALUE, 6)], &[]);
    for byte in 0..4 {
        breaks_through(&[(LINE_VALUE + byte, 6)], &[11]);
        breaks_through(&[(LINE_VALUE + 4 + byte, 6)], &[11]);
        breaks_through(&[(LINE_VALUE + 4 * 14 + byte, 6)], &[11]);
        breaks_through(&[(MEMORY + 4 * 8 + byte, 6)], &[11]);
        breaks_through(&[(MEMORY + 4 * 14 + byte, 6)], &[11]);
        breaks_through(&[(MEMORY + 4 * 9 + byte, 6)], &[11]);
        breaks_through(&[(LINE_VALUE + byte, 6), (MEMORY + 4 * 8 + byte, 6)], &[]);
    }
    // pages that have no line
    breaks_through(&[(MEMORY + 4 * 10, 6)], &[]);
    breaks_through(&[(MEMORY + 4 * 12, 6)], &[]);
    breaks_through(&[(MEMORY + 4 * 13, 6)], &[]);
}

#[test]
fn rule_11_lines_that_lead_nowhere() {
    for byte in [65, 66, 128, 255] {
        breaks_through(&[(LINE_PAGE + 1, byte)], &[7, 10]);
        breaks_through(&[(LINE_PAGE + 1, byte), (LINE_VALUE + 4, 6)], &[7, 10]);
    }
    // an empty way, whatever it holds
    breaks_through(&[(LINE_VALUE + 8, 6)], &[10]);
    breaks_through(&[(LINE_PAGE + 1, 0), (LINE_VALUE + 4, 6)], &[10]);
    breaks_through(&[(LINE + 2, 64), (LINE_VALUE + 8, 6)], &[10]);
}

#[test]
fn rule_11_asks_no_more() {
    // an address that leads nowhere, and one that no table maps
    breaks_through(&[(LINE, 64)], &[7, 10]);
    breaks_through(&[(LINE, 64), (LINE_VALUE, 6)], &[7, 10, 11]);
    breaks_through(&[(LINE, 16), (LINE_VALUE, 6)], &[7, 11]);
    // a page not cacheable, a table, the host's, a page without owner
    breaks_through(&[(MARK + 8, 0)], &[7]);
    breaks_through(&[(MARK + 8, 0), (LINE_VALUE, 6)], &[7, 11]);
    for page in [0, 4, 11, 20, 63] {
        let line = [(LINE + 2, 1), (LINE_PAGE + 2, page + 1)];
        breaks_through(&line, &[7]);
        breaks_through(&[&line[..], &[(LINE_VALUE + 8, 1)]].concat(), &[7, 11]);
    }
    // of two lines of one page each
    let twice = [(LINE + 1, 0), (LINE_PAGE + 1, 9)];
    breaks_through(&[&twice[..], &[(LINE_VALUE + 4, 5)]].concat(), &[7]);
    breaks_through(&twice, &[7, 11]);
    breaks_through(&[&twice[..], &[(LINE_VALUE + 4, 5), (LINE_VALUE, 6)]].concat(), &[7, 11]);
    // with others
    breaks_through(&[(MODE, 2), (LINE_VALUE, 6)], &[10, 11]);
    breaks_through(&[(HISTORY + 7, 1), (MEMORY + 4 * 8, 0)], &[9, 11]);
}

#[test]
fn each_rule_is_broken_alone_by_the_damager() {
    let mut alone = [0; RULES];
    for state in damage::states(1, 300) {
        if let Some(rule) = damage::broken_alone(&state) {
            alone[rule] += 1;
        }
    }
    assert!(alone.iter().all(|times| *times > 0), "{alone:?}");
}

/// Rule 11 is also broken with others, and others without it under write-through.
#[test]
fn the_damager_knows_both_policies() {
    let states = damage::states(2, 600);
    let broken = |state: &State| rules(state).iter().filter(|holds| !**holds).count();
    let through: Vec<&State> = states.iter().filter(|state| state.writes_through()).collect();
    let eleven = |state: &&&State| !rules(state)[10];
    assert!((200..400).contains(&through.len()), "{}", through.len());
    assert!(through.iter().filter(eleven).any(|state| broken(state) > 1));
    let others = through.iter().filter_map(|state| damage::broken_alone(state));
    assert_eq!(others.collect::<std::collections::BTreeSet<_>>(), (0..RULES).collect());
    let odd = states.iter().filter(|state| matches!(state.policy, Policy::Odd(_)));
    assert!(odd.filter(|state| damage::broken_alone(state) == Some(9)).count() > 5);
}

#[test]
fn damaged_states_are_the_seeds() {
    assert!(damage::states(9, 40) == damage::states(9, 40));
    assert!(damage::states(9, 40) != damage::states(10, 40));
}

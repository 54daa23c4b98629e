//! What is named of a damaged state, rule by rule.

use second::{first_broken, Judged, Policy, State, RULES};

use super::base::base;

/// A rule, the part and the number of its first broken place, and its words.
pub type Named = (u8, u8, u16, &'static str);

pub fn named(state: &State) -> Vec<(u8, u8, u16, String)> {
    let broken = |rule: u8| match first_broken(state, rule) {
        Judged::Broken(b) => Some((rule, b.part, b.place.number(), b.place.to_string())),
        _ => None,
    };
    (1..=RULES as u8).filter_map(broken).collect()
}

pub fn all_named(bytes: &[u8], expected: &[Named]) {
    let found = named(&State::from_bytes(bytes));
    let found: Vec<_> = found.iter().map(|(r, p, n, words)| (*r, *p, *n, &words[..])).collect();
    assert_eq!(found, expected);
}

pub fn names_on(policy: Policy, changes: &[(usize, u8)], expected: &[Named]) {
    let mut bytes = base(policy);
    for (at, byte) in changes {
        bytes[*at] = *byte;
    }
    all_named(&bytes, expected);
}

/// Changes bytes of the write-back base; exactly these rules are broken, first at these places.
pub fn names(changes: &[(usize, u8)], expected: &[Named]) {
    names_on(Policy::WriteBack, changes, expected);
}

pub fn names_through(changes: &[(usize, u8)], expected: &[Named]) {
    names_on(Policy::WriteThrough, changes, expected);
}

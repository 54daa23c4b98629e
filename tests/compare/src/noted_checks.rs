//! What is noted of checks and reports: of each of a few, exactly what it is, but for the rules that hold.

use second::state::{Mode, Slot};
use second::{fresh, Mach, State, Virt, IMAGE_BYTES, IMAGE_HEADER};

use crate::check_tally::CheckTally;
use crate::checks::{checked, reported};
use crate::versions::Version;

type Noted = &'static [&'static str];

fn damaged(damage: impl Fn(&mut State)) -> State {
    let mut state = fresh();
    damage(&mut state);
    state
}

/// Rule 10 alone.
fn odd_mode() -> State {
    damaged(|state| state.mode = Mode::Odd(2))
}

/// Rules 2 and 10.
fn odd_mark() -> State {
    damaged(|state| state.pages[63].mark = 2)
}

/// Rules 8 and 10, with no table in force.
fn no_active() -> State {
    let slot = Virt::new(23).zip(Mach::new(9)).map(|(va, page)| Slot::new(va, page));
    damaged(|state| {
        state.active = 4;
        state.tlb[7] = slot.unwrap_or(Slot::EMPTY);
    })
}

fn checks() -> Vec<(State, Noted)> {
    vec![
        (fresh(), &[]),
        (
            odd_mode(),
            &[
                "Check: rule 10 broken",
                "Check: rule 10 broken alone",
                "Check: rule 10, part 11, First place",
            ],
        ),
        (
            odd_mark(),
            &[
                "Check: rule 2 broken",
                "Check: rule 10 broken",
                "Check: rules 2 and 10 broken, and no other",
                "Check: rule 2, part 0, Last place",
                "Check: rule 10, part 2, Last place",
            ],
        ),
    ]
}

/// An image, the room for its report, and what is noted.
type Report = (Vec<u8>, usize, Noted);

/// All rules hold, or the text is not whole.
fn opened() -> Vec<Report> {
    vec![
        (
            Version::One.image_of(&fresh()),
            300,
            &["Report: version 1, status 0", "Report: eleven lines, a larger buffer"],
        ),
        (
            Version::Two.image_of(&fresh()),
            90,
            &["Report: status 0", "Report: eleven lines, just the text"],
        ),
        (
            Version::Two.image_of(&odd_mark()),
            10,
            &["Report: status 1", "Report: eleven lines, fewer bytes"],
        ),
    ]
}

fn broken() -> Vec<Report> {
    vec![
        (
            Version::Two.image_of(&odd_mode()),
            300,
            &[
                "Report: rule 10 broken",
                "Report: rule 10 broken alone",
                "Report: rule 10, part 11, First place",
                "Report: status 1",
                "Report: eleven lines, a larger buffer",
            ],
        ),
        (
            Version::Two.image_of(&no_active()),
            300,
            &[
                "Report: rule 8 broken",
                "Report: rule 10 broken",
                "Report: rules 8 and 10 broken, and no other",
                "Report: rule 8, part 0, Last place",
                "Report: rule 10, part 10, First place",
                "Report: status 1",
                "Report: eleven lines, a larger buffer",
                "Report: 8 broken, the active guest out of range",
            ],
        ),
    ]
}

fn refused() -> Vec<Report> {
    let mut marked = Version::Two.image_of(&odd_mode());
    marked[1] ^= 1;
    let mut longer = Version::One.image_of(&fresh());
    longer.push(0);
    vec![
        (
            Vec::new(),
            0,
            &[
                "Report: 16, version 1, no byte",
                "Report: 16, no byte",
                "Report: refused, no buffer",
            ],
        ),
        (
            marked,
            10,
            &[
                "Report: 16, byte 1 of the header alone, state not valid",
                "Report: refused, one byte too few",
            ],
        ),
        (
            longer,
            11,
            &[
                "Report: 16, version 1, one byte too many",
                "Report: 16, byte 3 of the header alone, state valid",
                "Report: refused, just the text",
            ],
        ),
        (
            [&IMAGE_HEADER[..], &[255; IMAGE_BYTES]].concat(),
            12,
            &["Report: 16, more bytes", "Report: refused, a larger buffer"],
        ),
    ]
}

/// All that was noted, but that rules hold and that numbers are none's, in any order.
fn exactly(tally: &CheckTally, expected: &[&str]) -> Result<(), String> {
    let quiet = |text: &String| !text.ends_with(" holds") && !text.ends_with(" is no rule");
    let mut met: Vec<String> = tally.counts.met().into_iter().filter(quiet).collect();
    let mut expected: Vec<String> = expected.iter().map(|text| text.to_string()).collect();
    met.sort();
    expected.sort();
    match met == expected {
        true => Ok(()),
        false => Err(format!("noted is {met:?}, and not {expected:?}")),
    }
}

/// How many there were.
pub fn each() -> Result<usize, String> {
    let checks = checks();
    let reports: Vec<Report> = [opened(), broken(), refused()].concat();
    for (state, expected) in &checks {
        let mut tally = CheckTally::default();
        tally.note_check(&checked(&state.to_bytes()));
        exactly(&tally, expected)?;
    }
    for (image, room, expected) in &reports {
        let mut tally = CheckTally::default();
        tally.note_report(image, &reported(image, &vec![7; *room]));
        exactly(&tally, expected)?;
    }
    Ok(checks.len() + reports.len())
}

#[cfg(test)]
mod tests {
    #[test]
    fn tasks_are_noted_as_what_they_are() {
        assert_eq!(super::each().err(), None);
    }
}

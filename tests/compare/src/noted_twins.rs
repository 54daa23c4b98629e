//! What is noted of twins: of each of a few, exactly what it is, but for the numbers that told records got.

use crate::twin_places::Both;
use crate::twin_runs::{at_end, by_second};
use crate::twin_samples as samples;
use crate::twin_tally::TwinTally;
use crate::twins::Twins;

type Noted = (Twins, &'static [&'static str]);

/// All that is hidden differs.
fn hidden() -> Noted {
    (
        samples::all_at_once(),
        &[
            "keeper",
            "V is guest 0",
            "from the fresh machine, write-back",
            "hidden record put in",
            "told write with another value, to a line",
            "hidden, kind 3: 0",
            "line of V's, other, taken out of set 0 by V",
            "at the end slot 7 other",
            "at the end V's values in memory other",
            "at the end V's lines in sets 0 to 6 other",
            "at the end V's line in set 7 other",
            "at the end all of these other at once",
            "at the end other without hiding V",
            "at the end V running",
        ],
    )
}

/// Values differ.
fn values() -> Vec<Noted> {
    vec![
        (
            samples::other_values(),
            &[
                "keeper",
                "V is guest 0",
                "from the fresh machine, write-back",
                "told write with another value, to a page not cacheable",
                "told write with another value, no such record",
                "told write with another value, in the wrong mode",
                "told write with another value, reserved or not mapped",
                "at the end V's values in memory other",
                "at the end other without hiding V",
                "at the end V running",
            ],
        ),
        (
            samples::from_two(),
            &[
                "keeper",
                "V is guest 0",
                "from two machines, write-back",
                "switch from V, its line of 7 other",
                "switch to V, the line of 7 loaded other",
                "at the end V's values in memory other",
                "at the end V's lines in sets 0 to 6 other",
                "at the end V's line in set 7 other",
                "at the end other without hiding V",
                "at the end V waiting",
            ],
        ),
    ]
}

/// The machines are the same at the end.
fn passed_on() -> Noted {
    (
        samples::passed_on(),
        &[
            "keeper",
            "V is guest 1",
            "from the fresh machine, write-through",
            "told write with another value, to a line",
            "del elsewhere by V, the line other",
            "page unpinned by V, its value other",
            "that page pinned by another guest",
            "that page read by another guest",
            "at the end the same without hiding V",
            "at the end another guest active",
        ],
    )
}

/// They are the same all along.
fn refused() -> Noted {
    (
        samples::refused_at_7(),
        &[
            "keeper",
            "V is guest 0",
            "from the fresh machine, write-back",
            "hidden record put in",
            "hidden record left out",
            "hidden record of another kind",
            "hidden write with another value alone",
            "hidden record with other bytes that are not used",
            "hidden record with another number in its place",
            "hidden, kind 1: 6",
            "hidden, kind 2: 2",
            "hidden, kind 2: 3",
            "hidden, kind 3: 2",
            "hidden, kind 3: 6",
            "hidden, kind 4: 3",
            "at the end the same without hiding V",
            "at the end V running",
        ],
    )
}

/// How many there were; and what are no twins must be told.
pub fn each() -> Result<usize, String> {
    let noted = [values(), vec![hidden(), passed_on(), refused()]].concat();
    for (twins, expected) in &noted {
        let mut tally = TwinTally::default();
        by_second(twins, &mut tally)?;
        let both: Both = at_end(&mut |task| Ok(task.expected()), twins)?;
        tally.note_place(&both, true);
        let quiet = |text: &String| !text.starts_with("twins: told, ");
        let met: Vec<String> = tally.counts.met().into_iter().filter(quiet).collect();
        let expected = expected.iter().map(|text| format!("twins: {text}"));
        let expected: Vec<String> = expected.collect();
        if met != expected {
            return Err(format!("noted is {met:?}, and not {expected:?}"));
        }
    }
    for (twins, why) in samples::no_twins() {
        match by_second(&twins, &mut TwinTally::default()) {
            Err(text) if text.ends_with(why) => {}
            _ => return Err(format!("no twins, and not told: {why}")),
        }
    }
    Ok(noted.len())
}

#[cfg(test)]
mod tests {
    #[test]
    fn twins_are_noted_as_what_they_are() {
        assert_eq!(super::each().err(), None);
    }
}

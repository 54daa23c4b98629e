//! What is noted of calls of feed: of each of a few, exactly what it is.

use second::state::Mode;
use second::{fresh, fresh_with, Kept, Policy, State, HEADER, KEPT};

use crate::feeds::{Feed, ALL};
use crate::images::{along, IN_A_ROW};
use crate::piece_tally::PieceTally;
use crate::pieces::kept;

/// A call, the number that it gets, and what else is noted of it.
type Noted = (Feed, &'static str, &'static [&'static str]);

/// Kept, piece, allowance, whether the input ends, and bytes of the buffer; on a machine that waits.
fn call(kept: Kept, piece: &[u8], allowance: u16, last: bool, room: usize) -> Feed {
    let machine = State { mode: Mode::Waiting, ..fresh() }.to_bytes();
    Feed { machine, kept, piece: piece.to_vec(), allowance, last, buffer: vec![7; room] }
}

/// The same with a map that marks every page: rule 2.
fn marked(feed: Feed) -> Feed {
    Feed { machine: State { free: u64::MAX, ..fresh() }.to_bytes(), ..feed }
}

fn on_fresh(policy: Policy, feed: Feed) -> Feed {
    Feed { machine: fresh_with(policy).to_bytes(), ..feed }
}

/// A machine of write-through with a line that memory has not: rule 11.
fn dirty(feed: Feed) -> Feed {
    let mut state = along()[IN_A_ROW].clone();
    let line = state.cache.iter_mut().flat_map(|set| &mut set.ways).find(|l| !l.page.is_empty());
    line.into_iter().for_each(|line| line.value ^= 1);
    Feed { machine: state.to_bytes(), ..feed }
}

/// Header bytes, the one at a place wrong.
fn wrong(from: usize, place: usize) -> Vec<u8> {
    let mut header = HEADER;
    header[place] ^= 1;
    header[from..].to_vec()
}

const STOP: [u8; 8] = [11, 0, 0, 0, 0, 0, 0, 0];

fn not_valid() -> Vec<Noted> {
    let ahead = [&HEADER[..], &STOP].concat();
    vec![
        (marked(call([0; KEPT], &ahead, 1, false, 8)), "1", &["rule 2 alone"]),
        (dirty(call([0; KEPT], &ahead, 1, false, 8)), "1", &["rule 11 alone"]),
        (
            marked(call([0; KEPT], b"x", 1, false, 8)),
            "1",
            &["where 13 applies too", "rule 2 alone"],
        ),
        (
            marked(call([0; KEPT], &ahead, 1, true, 7)),
            "1",
            &["where 15 applies too", "rule 2 alone"],
        ),
    ]
}

fn no_journal() -> Vec<Noted> {
    let wrong_ahead = [wrong(0, 7), STOP.to_vec()].concat();
    let spent = kept(255, &[]);
    vec![
        (call(kept(9, &[]), &[], 0, true, 0), "13", &["the header's count past 8 alone"]),
        (call([8; KEPT], &[], 0, true, 0), "13", &["the begun record's count past 7 alone"]),
        (call([9; KEPT], &[], 0, true, 0), "13", &["both counts"]),
        (
            call(spent, &HEADER, 0, true, 0),
            "13",
            &["the header's count past 8 alone", "the header's count as 13 leaves it"],
        ),
        (call(kept(2, &[]), &wrong(2, 5), 1, true, 8), "13", &["header byte 5 after 2 taken"]),
        (
            call([0; KEPT], &wrong_ahead, ALL, false, 7),
            "13",
            &["where 15 applies too", "header byte 7 after 0 taken"],
        ),
        (
            call(kept(6, &[]), &[], 1, true, 8),
            "13",
            &["the input ends after 6 header bytes with no byte"],
        ),
        (
            call(kept(5, &[1]), &HEADER[5..7], 1, true, 8),
            "13",
            &["the input ends after 7 header bytes with a piece"],
        ),
    ]
}

fn no_room() -> Vec<Noted> {
    vec![
        (call(kept(8, &[]), &[0; 20], 2, true, 15), "15", &["one byte too few"]),
        (
            call(kept(8, &[1]), &[0; 20], 1, true, 0),
            "15",
            &[
                "no buffer",
                "for the records to be run, and more at hand",
                "for a begun record that the piece completes",
            ],
        ),
    ]
}

fn headers_taken() -> Vec<Noted> {
    vec![
        (
            on_fresh(Policy::WriteBack, call([0; KEPT], &HEADER[..3], 0, false, 0)),
            "0",
            &[
                "0 header bytes before",
                "0 bytes of a begun record left",
                "allowance 0 and none at hand, no begun record",
                "header bytes taken with allowance 0",
                "no buffer and no record",
                "on the fresh machine",
            ],
        ),
        (
            on_fresh(Policy::WriteThrough, call(kept(8, &[]), &[], 1, false, 0)),
            "0",
            &[
                "8 header bytes before",
                "0 bytes of a begun record left",
                "allowance larger than what is at hand, no begun record",
                "an empty piece",
                "no buffer and no record",
                "on the fresh machine of write-through",
                "on a machine of write-through",
            ],
        ),
        (
            call(kept(3, &[16]), &HEADER[3..4], ALL, false, 1),
            "0",
            &[
                "3 header bytes before",
                "1 bytes of a begun record left",
                "allowance as many as there can be, a begun record",
                "a header still short, with a begun record",
                "a larger buffer",
            ],
        ),
    ]
}

fn completed() -> Vec<Noted> {
    vec![
        (
            call(kept(7, &[12, 0]), &[0, 0, 0, 0, 0, 0, 0, 9, 9], 1, true, 9),
            "0",
            &[
                "7 header bytes before",
                "a begun record of 2: run, and none left",
                "2 bytes of a begun record left",
                "allowance all at hand, a begun record",
                "the header completed and a record run",
                "the input ends with a begun record",
                "a larger buffer",
                "a record accepted",
            ],
        ),
        (
            call(kept(8, &[16; 7]), &[16; 10], 1, false, 8),
            "0",
            &[
                "8 header bytes before",
                "a begun record of 7: run, and records left",
                "0 bytes of a begun record left",
                "allowance smaller than what is at hand, a begun record",
                "a buffer of just the answers",
                "a buffer too short for all at hand",
                "a record refused",
            ],
        ),
    ]
}

fn left_begun() -> Vec<Noted> {
    let behind = [8, 1, 0, 0, 0, 0, 0, 9, 0];
    vec![(
        call(behind, &[0; 16], 0, true, 3),
        "0",
        &[
            "8 header bytes before",
            "a begun record of 1: kept before a whole record",
            "1 bytes of a begun record left",
            "allowance 0 and some at hand, a begun record",
            "the input ends with records left",
            "a buffer too short for all at hand",
            "a larger buffer",
            "bytes behind the begun record made zeros",
        ],
    )]
}

/// How many there were.
pub fn each() -> Result<usize, String> {
    let calls =
        [not_valid(), no_journal(), no_room(), headers_taken(), completed(), left_begun()].concat();
    for (feed, number, more) in &calls {
        let mut tally = PieceTally::default();
        tally.note(feed, &feed.expected());
        let met = tally.counts.met();
        let more = more.iter().map(|text| format!("feed: {number}, {text}"));
        let expected: Vec<String> = [format!("feed: {number}")].into_iter().chain(more).collect();
        if met != expected {
            return Err(format!("noted is {met:?}, and not {expected:?}"));
        }
    }
    Ok(calls.len())
}

#[cfg(test)]
mod tests {
    #[test]
    fn calls_are_noted_as_what_they_are() {
        assert_eq!(super::each().err(), None);
    }
}

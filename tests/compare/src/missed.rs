//! What a run has not met must be missed: each count of the tally and of the events left out, and each run of a few that end with a drop.

use second::{fresh, step, Policy, HEADER};

use crate::checked::CheckedTally;
use crate::events::Events;
use crate::host_tally::HostTally;
use crate::tally::Tally;
use crate::task::{On, Task};

/// Kind, a, b and call of each record.
type Records = &'static [[u8; 4]];

const ASK: [u8; 4] = [10, 9, 0, 2];
const STOP: [u8; 4] = [11, 0, 0, 0];
const SWITCH: [u8; 4] = [8, 2, 0, 0];
/// Refused, so that guest 2 stays active.
const NO_SWITCH: [u8; 4] = [8, 4, 0, 0];
const RUN: [u8; 4] = [12, 0, 0, 0];

/// Runs that each end with a drop, and what is missing without them.
const DROPS: [(Records, &str); 8] = [
    (&[STOP, SWITCH, RUN, ASK, [15, 2, 0, 0]], "drop of the active guest never got 0"),
    (&[ASK, SWITCH, [15, 0, 0, 0]], "drop of another guest never got 0"),
    (&[STOP, SWITCH, [15, 2, 1, 0]], "drop of the active guest never got 2"),
    (&[STOP, SWITCH, [15, 0, 1, 0]], "drop of another guest never got 2"),
    (&[STOP, SWITCH, RUN, [15, 2, 0, 0]], "drop of the active guest never got 3"),
    (&[STOP, SWITCH, RUN, [15, 0, 0, 0]], "drop of another guest never got 3"),
    (&[STOP, SWITCH, NO_SWITCH, [15, 2, 0, 0]], "drop of the active guest never got 4"),
    (&[STOP, SWITCH, [15, 0, 0, 0]], "drop of another guest never got 4"),
];

/// How many were left out, each of them missed.
pub fn each() -> Result<usize, String> {
    let all = [Tally::full().missing(), Events::full().missing()].concat();
    if !all.is_empty() {
        return Err(format!("a run that meets everything does not pass: {}", all.join(", ")));
    }
    let counts = Tally::full().needed().len();
    for left_out in 0..counts {
        let mut tally = Tally::full();
        *tally.needed()[left_out] = 0;
        if tally.missing().is_empty() {
            return Err(format!("count {left_out} was left out, and not missed"));
        }
    }
    let events = Events::full().needed().len();
    for left_out in 0..events {
        let mut happened = Events::full();
        *happened.needed()[left_out] = 0;
        if happened.missing().len() != 1 {
            return Err(format!("event {left_out} was left out, and not missed"));
        }
    }
    let hosts = hosts(false)? + hosts(true)? + checked()?;
    for form in [whole, continued, judged] {
        drops(form)?;
    }
    Ok(counts + events + hosts + 3 * DROPS.len())
}

/// Each run of rpj left out, of journals that come as a whole or as a stream.
fn hosts(streams: bool) -> Result<usize, String> {
    let counts = HostTally::full(streams).needed().len();
    for left_out in 0..counts {
        let mut tally = HostTally::full(streams);
        *tally.needed()[left_out] = 0;
        if tally.missing().len() != 1 {
            return Err(format!("a run of rpj, {left_out}, was left out, and not missed"));
        }
    }
    Ok(counts)
}

/// Each check by rpj left out.
fn checked() -> Result<usize, String> {
    let counts = CheckedTally::full().needed().len();
    for left_out in 0..counts {
        let mut tally = CheckedTally::full();
        *tally.needed()[left_out] = 0;
        if tally.missing().len() != 1 {
            return Err(format!("a check by rpj, {left_out}, was left out, and not missed"));
        }
    }
    Ok(counts)
}

/// Everything else met, and the runs in one form of a task: all of them, then all but one.
fn drops(form: fn(Records) -> Task) -> Result<(), String> {
    for left_out in 0..=DROPS.len() {
        let mut tally = Tally::full().without_drops();
        for (i, (records, _)) in DROPS.iter().enumerate() {
            let task = form(records);
            if i != left_out {
                tally.note(&task, &task.expected());
            }
        }
        let expected: Vec<&str> = DROPS.get(left_out).map(|(_, text)| *text).into_iter().collect();
        let missing = tally.missing();
        if missing != expected {
            return Err(format!("missing is {missing:?}, and not {expected:?}"));
        }
    }
    Ok(())
}

fn bytes(records: &[[u8; 4]]) -> Vec<u8> {
    records.iter().flat_map(|[kind, a, b, call]| [*kind, *a, *b, *call, 0, 0, 0, 0]).collect()
}

fn run(on: On, body: &[u8]) -> Task {
    let journal = [&HEADER, body].concat();
    Task::Run { on, journal, buffer: vec![0; body.len()] }
}

/// The machine before the last record, and that record.
fn at_last(records: Records) -> (Vec<u8>, Vec<u8>) {
    let (before, last) = records.split_at(records.len() - 1);
    let mut state = fresh();
    for record in bytes(before).chunks(8) {
        step(&mut state, record);
    }
    (state.to_bytes(), bytes(last))
}

fn whole(records: Records) -> Task {
    run(On::Fresh(Policy::WriteBack), &bytes(records))
}

fn continued(records: Records) -> Task {
    let (machine, record) = at_last(records);
    run(On::Machine(machine), &record)
}

fn judged(records: Records) -> Task {
    let (machine, record) = at_last(records);
    Task::Judge { machine, record }
}

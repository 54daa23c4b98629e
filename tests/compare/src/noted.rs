//! What is noted of tasks with images: of each of a few, exactly what it is.

use second::state::Mode;
use second::{fresh, fresh_with, image_of, old_image_of, Policy, State, IMAGE_BYTES, STATE_BYTES};

use crate::image_tally::ImageTally;
use crate::images::along;
use crate::task::Task;

/// A task, the number that it gets, and what else is noted of it.
type Noted = (Task, &'static str, &'static [&'static str]);

/// A machine that breaks more than one rule.
fn noise() -> Vec<u8> {
    vec![0xD7; STATE_BYTES]
}

fn in_mode(mode: Mode) -> Vec<u8> {
    State { mode, ..fresh() }.to_bytes()
}

fn waiting() -> Vec<u8> {
    in_mode(Mode::Waiting)
}

/// The map marks every page: rule 2.
fn marked() -> Vec<u8> {
    State { free: u64::MAX, ..fresh() }.to_bytes()
}

fn open(machine: Vec<u8>, image: Vec<u8>) -> Task {
    Task::Open { machine, image }
}

fn load(machine: Vec<u8>, image: Vec<u8>) -> Task {
    Task::Load { machine, image }
}

fn save(machine: Vec<u8>, room: usize) -> Task {
    Task::Save { machine, buffer: vec![7; room] }
}

fn image(machine: Vec<u8>) -> Vec<u8> {
    image_of(&State::from_bytes(&machine))
}

/// The image of a machine, with another start.
fn started(start: &[u8], machine: Vec<u8>) -> Vec<u8> {
    [start, &image(machine)[start.len()..]].concat()
}

/// The image of a machine, cut or with zeros behind it.
fn of_length(length: usize, machine: Vec<u8>) -> Vec<u8> {
    let mut image = image(machine);
    image.resize(length, 0);
    image
}

fn new() -> Vec<u8> {
    fresh().to_bytes()
}

fn new_through() -> Vec<u8> {
    fresh_with(Policy::WriteThrough).to_bytes()
}

/// A valid machine with a line that memory has not.
fn dirty() -> Vec<u8> {
    let mut states = along().into_iter();
    let dirty = |state: &State| !state.lines().all(|line| state.memory_has(line));
    states.find(dirty).map_or(Vec::new(), |state| state.to_bytes())
}

fn old(machine: Vec<u8>) -> Vec<u8> {
    old_image_of(&State::from_bytes(&machine))
}

/// The image of a machine, with another policy.
fn with_policy(byte: u8, machine: Vec<u8>) -> Vec<u8> {
    [&image(machine)[..IMAGE_BYTES - 1], &[byte]].concat()
}

fn opened() -> Vec<Noted> {
    vec![
        (open(new(), image(waiting())), "Open: 0", &["the fresh machine"]),
        (open(waiting(), image(noise())), "Open: 0", &["another valid machine", "state not valid"]),
        (
            open(new(), Vec::new()),
            "Open: 16",
            &["the fresh machine", "version 1, no byte", "no byte"],
        ),
        (open(noise(), started(b"rp", new())), "Open: 16", &["a machine not valid"]),
        (
            open(noise(), started(b"r", new())),
            "Open: 16",
            &["a machine not valid", "byte 0 of the header alone, state valid"],
        ),
    ]
}

fn loaded() -> Vec<Noted> {
    let two = image(in_mode(Mode::Odd(2)));
    vec![
        (
            load(noise(), image(waiting())),
            "Load: 0",
            &["a machine not valid", "the host in control", "write-back"],
        ),
        (load(noise(), image(new_through())), "Load: 0", &["a machine not valid", "write-through"]),
        (load(noise(), image(noise())), "Load: 1", &["a machine not valid"]),
        (load(noise(), image(marked())), "Load: 1", &["a machine not valid", "rule 2 alone"]),
        (load(new(), two), "Load: 1", &["the fresh machine", "rule 10 alone", "mode of 2 alone"]),
        (
            load(waiting(), started(b"RPS\x02\x01", noise())),
            "Load: 16",
            &["another valid machine", "byte 4 of the header alone, state not valid"],
        ),
        (
            load(new(), of_length(IMAGE_BYTES - 1, new())),
            "Load: 16",
            &[
                "the fresh machine",
                "one byte too few",
                "version 1, byte 3 of the header alone, state valid",
            ],
        ),
        (
            load(new(), of_length(IMAGE_BYTES + 1, noise())),
            "Load: 16",
            &["the fresh machine", "one byte too many", "more bytes, state not valid"],
        ),
    ]
}

/// Images of version 1, and images with another policy.
fn older() -> Vec<Noted> {
    let mut longer = old(noise());
    longer.push(0);
    vec![
        (
            open(new_through(), old(noise())),
            "Open: 0",
            &["the fresh machine of write-through", "version 1, state not valid"],
        ),
        (
            load(new(), old(waiting())),
            "Load: 0",
            &["the fresh machine", "version 1, the host in control", "version 1, write-back"],
        ),
        (
            load(noise(), old(marked())),
            "Load: 1",
            &["a machine not valid", "version 1, rule 2 alone"],
        ),
        (
            load(new(), longer),
            "Load: 16",
            &[
                "the fresh machine",
                "version 1, one byte too many",
                "byte 3 of the header alone, state not valid",
                "version 1, more bytes, state not valid",
            ],
        ),
        (
            load(new(), with_policy(1, new())),
            "Load: 0",
            &["the fresh machine", "write-through", "the policy alone made write-through"],
        ),
        (
            load(new_through(), with_policy(0, new_through())),
            "Load: 0",
            &[
                "the fresh machine of write-through",
                "write-back",
                "the policy alone made write-back",
            ],
        ),
        (
            load(dirty(), with_policy(1, dirty())),
            "Load: 1",
            &["another valid machine", "rule 11 alone", "the policy alone made write-through"],
        ),
        (
            load(dirty(), with_policy(2, dirty())),
            "Load: 1",
            &["another valid machine", "rule 10 alone", "policy of 2 alone"],
        ),
    ]
}

fn saved() -> Vec<Noted> {
    vec![
        (save(new(), IMAGE_BYTES), "Save: 0", &["the fresh machine", "write-back"]),
        (
            save(new_through(), IMAGE_BYTES),
            "Save: 0",
            &["the fresh machine of write-through", "write-through"],
        ),
        (
            save(waiting(), IMAGE_BYTES),
            "Save: 0",
            &["another valid machine", "the host in control", "write-back"],
        ),
        (save(noise(), IMAGE_BYTES), "Save: 1", &["a machine not valid"]),
        (
            save(marked(), IMAGE_BYTES + 2),
            "Save: 1",
            &["a machine not valid", "more bytes", "rule 2 alone"],
        ),
        (save(waiting(), STATE_BYTES), "Save: 16", &["another valid machine", "fewer bytes"]),
    ]
}

/// How many there were.
pub fn each() -> Result<usize, String> {
    let tasks: Vec<Noted> = [opened(), loaded(), older(), saved()].into_iter().flatten().collect();
    for (task, number, more) in &tasks {
        let mut tally = ImageTally::default();
        tally.note(task, task.expected()[0]);
        let met = tally.met();
        let more = more.iter().map(|text| format!("{number}, {text}"));
        let expected: Vec<String> = [number.to_string()].into_iter().chain(more).collect();
        if met != expected {
            return Err(format!("noted is {met:?}, and not {expected:?}"));
        }
    }
    Ok(tasks.len())
}

#[cfg(test)]
mod tests {
    #[test]
    fn tasks_are_noted_as_what_they_are() {
        assert_eq!(super::each().err(), None);
    }
}

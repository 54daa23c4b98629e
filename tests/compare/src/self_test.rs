//! The comparison itself: results with one byte changed must be seen.

use crate::chains::Chain;
use crate::hosts::{self, Files, Left};
use crate::images;
use crate::journals::{self, Journal};
use crate::policies::{self, Pair};
use crate::programs::Program;
use crate::tally::Tally;
use crate::task::{Item, Task};
use crate::trips::Trip;
use crate::twins::Twins;
use crate::{chains, check_plan, checked, difference, missed, noted, noted_checks, noted_pieces};
use crate::{leaks, noted_twins, twin_runs, twin_samples};
use crate::{pieces, plan, programs, same, streams, trips, Spot};

/// A few tasks of each form.
fn items() -> Vec<Item> {
    let of = |(profile, seed)| Journal { profile, seed, bytes: journals::journal(profile, seed) };
    let journals: Vec<Journal> = [("near", 3), ("lengths", 13), ("headers", 1)].map(of).into();
    let mut items = plan::runs(&journals);
    items.extend(plan::given(3));
    items.extend(plan::damaged(1, 3));
    items.extend(images::few());
    items.extend(pieces::few());
    items.extend(check_plan::few());
    items
}

pub fn run(probe: Program, rpj: Option<Program>) -> Result<(), String> {
    let items = items();
    let mut seen = 0;
    programs::probe(probe, &items, |i, mut ours| {
        let task = &items[i].task;
        let second = task.expected();
        if let Some(text) = difference::of_results(task, &ours, &second) {
            return Err(format!("task {i} differs as it is: {text}"));
        }
        for at in 0..ours.len() {
            ours[at] ^= 1 << (at % 8);
            if difference::of_results(task, &ours, &second).is_none() {
                return Err(format!("task {i}: byte {at} was changed, and not seen"));
            }
            ours[at] ^= 1 << (at % 8);
            seen += 1;
        }
        Ok(())
    })?;
    seen += trip(probe)? + chain(probe)? + pair(probe)?;
    if let Some(rpj) = rpj {
        seen += texts(rpj)? + left(rpj)?;
    }
    if Tally::default().missing().is_empty() {
        return Err("a run that meets nothing passes".into());
    }
    let [of_twins, hidden] = twins(probe)?;
    seen += of_twins;
    println!("{seen} changed bytes, each of them seen");
    println!("{hidden} bytes of twins that do not count changed, none of them seen");
    println!("{} counts left out, each of them missed", missed::each()?);
    println!("{} tasks with images, each of them noted as what it is", noted::each()?);
    println!("{} calls with pieces, each of them noted as what it is", noted_pieces::each()?);
    println!("{} checks, each of them noted as what it is", noted_checks::each()?);
    println!("{} twins, each of them noted as what it is", noted_twins::each()?);
    println!("{} machines that leak, each of them seen by twins alone", leaks::each()?);
    Ok(())
}

/// Each byte of a text changed, its last one left out, one added.
fn texts(rpj: Program) -> Result<usize, String> {
    let journal = journals::journal("lengths", 37);
    let second = second::program_output(&journal);
    let second = second.as_bytes();
    let ours = programs::rpj(rpj, false, &journal, journal.len())?;
    if let Some(text) = difference::of_texts(&ours, second) {
        return Err(format!("rpj differs as it is: {text}"));
    }
    let mut others: Vec<Vec<u8>> = (0..ours.len())
        .map(|at| {
            let mut other = ours.clone();
            other[at] ^= 1;
            other
        })
        .collect();
    others.push(ours[..ours.len() - 1].to_vec());
    others.push([&ours[..], b"\n"].concat());
    let unseen = |other: &&Vec<u8>| difference::of_texts(other, second).is_none();
    match others.iter().filter(unseen).count() {
        0 => Ok(others.len()),
        unseen => Err(format!("{unseen} changes of rpj's text were not seen")),
    }
}

/// Each byte of what counts on a trip changed.
fn trip(probe: Program) -> Result<usize, String> {
    // write-back, write-through, and over version 1
    let trips = trips::trips(probe, vec![(0, 333), (2, 333), (4, 333)])?;
    trips.into_iter().map(|trip| each_byte("a trip", trip, Trip::wrong, Trip::byte)).sum()
}

/// Each byte of what counts on both policies changed.
fn pair(probe: Program) -> Result<usize, String> {
    let pair = programs::asked(probe, |ask| policies::one(ask))?;
    each_byte("a pair", pair, Pair::wrong, Pair::byte)
}

/// Each byte of what counts over a chain of calls changed.
fn chain(probe: Program) -> Result<usize, String> {
    let chain = programs::asked(probe, |ask| chains::one(ask))?;
    each_byte("a chain", chain, Chain::wrong, Chain::byte)
}

/// Each byte of what ours gives on twins changed: it is seen exactly if it counts; gives how many do and how many do not.
fn twins(probe: Program) -> Result<[usize; 2], String> {
    use twin_samples::{all_at_once, from_two, passed_on};
    let all = [all_at_once(), from_two(), passed_on()];
    let mut changed = [0; 2];
    for twins in &all {
        let [seen, hidden] = bytes_of_twins(probe, twins)?;
        changed = [changed[0] + seen, changed[1] + hidden];
    }
    Ok(changed)
}

fn bytes_of_twins(probe: Program, twins: &Twins) -> Result<[usize; 2], String> {
    let mut both = programs::asked(probe, |ask| twin_runs::at_end(ask, twins))?;
    let ends = twins.walked().map(|(_, end)| end.to_bytes());
    if let Some(what) = both.wrong() {
        return Err(format!("twins differ as they are: {what}"));
    }
    if [both.machine(0), both.machine(1)] != [&ends[0][..], &ends[1]] {
        return Err("twins differ from the second program's".into());
    }
    let lengths = [0, 1].map(|i| both.results[i].len());
    let mut changed = [0; 2];
    for (i, at) in [0, 1].into_iter().flat_map(|i| (0..lengths[i]).map(move |at| (i, at))) {
        let counts = both.counts(i, at);
        both.results[i][at] ^= 1;
        if both.wrong().is_some() != counts {
            return Err(format!("twins: byte {at} was changed, and seen is not what counts"));
        }
        both.results[i][at] ^= 1;
        changed[!counts as usize] += 1;
    }
    Ok(changed)
}

/// What is right as it is must be wrong with any byte changed; gives how many there are.
fn each_byte<T>(
    what: &str,
    mut of: T,
    wrong: fn(&T) -> Option<&'static str>,
    byte: fn(&mut T, usize) -> Option<&mut u8>,
) -> Result<usize, String> {
    if let Some(why) = wrong(&of) {
        return Err(format!("{what} is wrong as it is: {why}"));
    }
    let mut at = 0;
    while let Some(changed) = byte(&mut of, at) {
        let before = std::mem::replace(changed, *changed ^ 1);
        wrong(&of).ok_or_else(|| format!("byte {at} of {what} was changed, and not seen"))?;
        byte(&mut of, at).into_iter().for_each(|byte| *byte = before);
        at += 1;
    }
    Ok(at)
}

/// A byte of what a run with images leaves, by its number in one part of it.
type Part = fn(&mut Left, usize) -> Option<&mut u8>;

const PARTS: [Part; 4] = [
    |left, at| left.text.get_mut(at),
    |left, at| left.status.get_mut(at),
    |left, at| left.message.get_mut(at),
    |left, at| left.files.values_mut().flatten().nth(at),
];

/// Each byte of what a run with images leaves changed; then a file more, and a file less. Of what checks an image too.
fn left(rpj: Program) -> Result<usize, String> {
    let mut changed = 0;
    for host in hosts::few().into_iter().chain(streams::few()) {
        changed += each_of(programs::host(rpj, &host)?, &host.expected(), &host.files)?;
    }
    for run in checked::few() {
        changed += each_of(programs::checked(rpj, &run)?, &run.expected(), &run.files)?;
    }
    Ok(changed)
}

fn each_of(mut ours: Left, second: &Left, before: &Files) -> Result<usize, String> {
    if let Some(text) = difference::of_left(&ours, second) {
        return Err(format!("rpj with images differs as it is: {text}"));
    }
    let mut changed = 0;
    let mut seen = |ours: &Left| {
        changed += 1;
        difference::of_left(ours, second).map(|_| ()).ok_or("a change of rpj's was not seen")
    };
    for part in PARTS {
        let mut at = 0;
        while let Some(byte) = part(&mut ours, at) {
            let before = std::mem::replace(byte, *byte ^ 1);
            seen(&ours)?;
            part(&mut ours, at).into_iter().for_each(|byte| *byte = before);
            at += 1;
        }
    }
    ours.files.insert("more".into(), Vec::new());
    seen(&ours)?;
    ours.files.retain(|name, _| before.contains_key(name));
    ours.files.pop_last();
    seen(&ours)?;
    Ok(changed)
}

/// The first task, one of the middle, and the last of each of some kinds.
fn spoilt(items: &[Item]) -> Vec<usize> {
    let kinds: [fn(&Task) -> bool; 4] = [
        |task| matches!(task, Task::Feed(_)),
        |task| matches!(task, Task::Begin { .. }),
        |task| matches!(task, Task::Check { .. }),
        |task| matches!(task, Task::Report { .. }),
    ];
    let last = |of: fn(&Task) -> bool| items.iter().rposition(|item| of(&item.task));
    [0, items.len() / 2].into_iter().chain(kinds.into_iter().filter_map(last)).collect()
}

/// A whole run has no difference, and with one byte of one result changed it stops at that very byte;
/// whatever else it stops at, or for, is an error here.
pub fn spoiled(probe: Program) -> Result<(), String> {
    let items = items();
    same(probe, &items, &mut Tally::default(), None)?;
    for task in spoilt(&items) {
        let size = items[task].task.result_size();
        for byte in [0, size / 2, size - 1] {
            let spot = Spot { task, byte };
            let what = format!("task {task}: byte {byte} was changed, and");
            match same(probe, &items, &mut Tally::default(), Some(spot)) {
                Err(stop) if stop.at == Some(spot) => println!("{what} the run stopped there"),
                Err(stop) => {
                    return Err(format!("{what} the run stopped elsewhere: {}", stop.text))
                }
                Ok(()) => return Err(format!("{what} the run did not stop")),
            }
        }
    }
    Ok(())
}

//! The proved host against the second program: everything; the comparison's own test;
//! runs with one byte of ours spoiled, which must stop there; a journal by profile and seed.

mod blind;
mod chains;
mod check_met;
mod check_plan;
mod check_shapes;
mod check_tally;
mod checked;
mod checks;
mod counts;
mod crowd;
mod declined;
mod difference;
mod events;
mod feeds;
mod hiding;
mod host_tally;
mod hosts;
mod image_tally;
mod images;
mod journals;
mod keeper;
mod leaks;
mod missed;
mod noted;
mod noted_checks;
mod noted_pieces;
mod noted_twins;
mod piece_met;
mod piece_tally;
mod pieces;
mod plan;
mod policies;
mod programs;
mod self_test;
mod streams;
mod tally;
mod task;
mod trips;
mod twin_met;
mod twin_places;
mod twin_runs;
mod twin_samples;
mod twin_steps;
mod twin_tally;
mod twins;
mod versions;

use std::io::Write;
use std::path::Path;
use std::process::ExitCode;
use std::time::Instant;

use second::hex::to_hex;

use events::Events;
use journals::Journal;
use programs::Program;
use tally::Tally;
use task::{Item, Task};

/// START is the script that starts PROBE and RPJ.
const USAGE: &str = "usage: compare START PROBE [RPJ] | self-test START PROBE [RPJ] | \
                     spoiled START PROBE | journal PROFILE SEED";

fn main() -> ExitCode {
    let words: Vec<String> = std::env::args().skip(1).collect();
    let words: Vec<&str> = words.iter().map(String::as_str).collect();
    let outcome = match words[..] {
        ["journal", profile, seed] => show(profile, seed),
        ["self-test", start, probe] => self_test::run(program(start, probe), None),
        ["self-test", start, probe, rpj] => {
            self_test::run(program(start, probe), Some(program(start, rpj)))
        }
        ["spoiled", start, probe] => self_test::spoiled(program(start, probe)),
        [start, probe] => everything(program(start, probe), None),
        [start, probe, rpj] => everything(program(start, probe), Some(program(start, rpj))),
        _ => Err(USAGE.into()),
    };
    match outcome {
        Ok(()) => ExitCode::SUCCESS,
        Err(text) => {
            println!("{text}");
            ExitCode::FAILURE
        }
    }
}

fn program<'a>(start: &'a str, path: &'a str) -> Program<'a> {
    Program { start: Path::new(start), path: Path::new(path) }
}

fn show(profile: &str, seed: &str) -> Result<(), String> {
    let seed = seed.parse().map_err(|_| USAGE)?;
    std::io::stdout().write_all(&journals::journal(profile, seed)).map_err(|e| e.to_string())
}

/// Walked record by record.
const WALKED: [(&str, u64); 9] = [
    ("deep", 2),
    ("deep", 6),
    ("near", 2),
    ("near", 6),
    ("crowd", 1),
    ("crowd", 4),
    ("fill", 3),
    ("noise", 1),
    ("declined", 0),
];

fn everything(probe: Program, rpj: Option<Program>) -> Result<(), String> {
    let start = Instant::now();
    let mut tally = Tally::default();
    let journals = journals::all();
    let [printed, hosts, streams, checked] =
        rpj.map_or(Ok([0; 4]), |rpj| by_rpj(rpj, &journals))?;
    by_probe(probe, &journals, &mut tally)?;
    let trips = trips::all(probe)?;
    let chains = programs::asked(probe, |ask| chains::all(ask, &mut tally.pieces))?;

    twin_runs::all(probe, &mut tally.twins)?;

    let mut events = Events::default();
    events.watch(&journals);
    tally.print();
    events.print();
    let missing =
        [tally.missing(), events.missing(), too_few(&tally, rpj.map(|_| printed))].concat();
    if !missing.is_empty() {
        return Err(missing.join("\n"));
    }
    let Tally { journals, pairs, records, states, valid, images, pieces, checks, twins, .. } =
        tally;
    println!(
        "no difference: {journals} journals with {records} records ({pairs} pairs, on both \
         policies), {states} states ({} not valid), {} images opened, loaded or saved, {trips} runs \
         with a save and a load between, {} pieces fed, {chains} journals in pieces to their ends, \
         {} machines checked, {} images reported ({} with a rule broken), {} twins compared at {} \
         places and {} told records, {printed} outputs of rpj, \
         {hosts} runs of it with images, {streams} with journals as they arrive, {checked} images \
         checked by it, {} s",
        states - valid,
        images.tasks,
        pieces.calls,
        checks.checks,
        checks.reports,
        checks.broken,
        twins.twins,
        twins.places,
        twins.told,
        start.elapsed().as_secs()
    );
    Ok(())
}

/// All tasks that do not depend on what ours gave before.
fn by_probe(probe: Program, journals: &[Journal], tally: &mut Tally) -> Result<(), Stop> {
    // one after the other, since all of them at once are many bytes
    let parts: [&dyn Fn() -> Vec<Item>; 12] = [
        &|| plan::runs(journals),
        &plan::rooms,
        &|| plan::given(120),
        &|| plan::walks(journals, &WALKED),
        &|| plan::damaged(40, 250),
        &|| plan::struck(20, 250),
        &|| images::whole(journals),
        &images::changed,
        &pieces::calls,
        &check_plan::damaged,
        &check_plan::aimed,
        &check_plan::others,
    ];
    for items in parts {
        same(probe, &items(), tally, None)?;
    }
    Ok(())
}

/// How many journals it printed, how many it ran from images or to images, how many as they arrived, and how many images it checked.
fn by_rpj(rpj: Program, journals: &[Journal]) -> Result<[usize; 4], String> {
    let printed = print_all(rpj, journals.iter().chain(&journals::longer()))?;
    Ok([printed, hosts::all(rpj)?, streams::all(rpj)?, checked::all(rpj)?])
}

fn too_few(tally: &Tally, printed: Option<usize>) -> Vec<String> {
    let least = [
        ("journals", tally.journals, 600),
        ("journals on both policies", tally.pairs, 300),
        ("records", tally.records, 600_000),
        ("states", tally.states - tally.valid, 5_000),
        ("images", tally.images.tasks, 20_000),
        ("pieces fed", tally.pieces.calls, 10_000),
        ("machines checked", tally.checks.checks, 2_000),
        ("images of which a rule is reported as broken", tally.checks.broken, 20_000),
        ("twins", tally.twins.twins, 350),
        ("places of twins", tally.twins.places, 1_700),
        ("told records of twins", tally.twins.told, 80_000),
        ("journals printed", printed.unwrap_or(100), 100),
    ];
    let short = least.iter().filter(|(_, count, least)| count < least);
    short.map(|(what, count, least)| format!("{count} {what}, not {least}")).collect()
}

/// A byte of a task's result.
#[derive(Clone, Copy, PartialEq)]
struct Spot {
    task: usize,
    byte: usize,
}

/// Why a run stopped: at a difference, or for anything else, which is at no spot.
struct Stop {
    at: Option<Spot>,
    text: String,
}

impl From<String> for Stop {
    fn from(text: String) -> Stop {
        Stop { at: None, text }
    }
}

impl From<Stop> for String {
    fn from(stop: Stop) -> String {
        stop.text
    }
}

/// All tasks in one process of `probe`, each result against the second program's, and those of one journal on both policies
/// against each other.
/// One byte of one result may be spoiled first.
fn same(
    probe: Program,
    items: &[Item],
    tally: &mut Tally,
    spoiled: Option<Spot>,
) -> Result<(), Stop> {
    // the result before, for the other policy
    let mut before = Vec::new();
    programs::probe(probe, items, |i, mut ours| {
        if let Some(spot) = spoiled.filter(|spot| spot.task == i) {
            ours[spot.byte] ^= 1;
        }
        let Item { profile, seed, task } = &items[i];
        tally.note(task, &ours);
        against_second(probe, i, &items[i], &ours)?;
        let pair = i > 0 && policies::are_pair(&items[i - 1].task, task);
        let other = pair.then(|| policies::of_pair(&before, &ours)).flatten();
        tally.pairs += pair as usize;
        before = ours;
        let stop = |text| Err(format!("difference: profile {profile}, seed {seed}: {text}").into());
        other.map_or(Ok(()), stop)
    })
}

fn against_second(probe: Program, i: usize, item: &Item, ours: &[u8]) -> Result<(), Stop> {
    let Item { profile, seed, task } = item;
    let second = task.expected();
    let Some(text) = difference::of_results(task, ours, &second) else { return Ok(()) };
    let byte = ours.iter().zip(&second).take_while(|(a, b)| a == b).count();
    let (on, first) = (task.started(), first_record(probe, task).unwrap_or_default());
    let text = format!("difference: profile {profile}, seed {seed}{on}, task {i}: {text}{first}");
    Err(Stop { at: Some(Spot { task: i, byte }), text })
}

/// A record after which results differ, with none before it in the journal's beginning up to it, in hex.
fn first_record(probe: Program, task: &Task) -> Option<String> {
    let Task::Run { on, journal, buffer } = task else { return None };
    let differs = |n: usize| {
        let journal = journal[..journal.len().min(8 + 8 * n)].to_vec();
        let shown = to_hex(&journal);
        let task = Task::Run { on: on.clone(), journal, buffer: buffer.clone() };
        let text = differs(probe, Item { profile: "beginning", seed: 0, task })?;
        Some(format!("\nafter {n} records: {text}\n  journal {shown}"))
    };
    // the beginning with `same` records has no difference, the one with `other` has
    let (mut same, mut other) = (0, journal.len().saturating_sub(8) / 8);
    if let Some(text) = differs(same) {
        return Some(text);
    }
    while other - same > 1 {
        let middle = (same + other) / 2;
        match differs(middle) {
            None => same = middle,
            Some(_) => other = middle,
        }
    }
    differs(other)
}

/// What differs in one task by itself.
fn differs(probe: Program, item: Item) -> Option<String> {
    let mut found = None;
    let items = [item];
    let _ = programs::probe(probe, &items, |_, ours| {
        let task = &items[0].task;
        found = difference::of_results(task, &ours, &task.expected());
        Ok::<(), String>(())
    });
    found
}

/// Each journal in a process of `rpj`; gives how many there were.
fn print_all<'a>(
    rpj: Program,
    journals: impl Iterator<Item = &'a Journal>,
) -> Result<usize, String> {
    let mut printed = 0;
    for Journal { profile, seed, bytes } in journals {
        let piece = if seed % 8 < 2 { 1000 } else { bytes.len().max(1) };
        let second = second::program_output(bytes);
        // every fourth with write-through too, which changes no line
        for through in [false, true].into_iter().take(1 + (seed % 4 == 1) as usize) {
            let ours = programs::rpj(rpj, through, bytes, piece)?;
            if let Some(text) = difference::of_texts(&ours, second.as_bytes()) {
                let on = if through { " with write-through" } else { "" };
                return Err(format!("difference: rpj{on}, profile {profile}, seed {seed}: {text}"));
            }
            printed += 1;
        }
    }
    Ok(printed)
}

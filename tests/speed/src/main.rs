//! speed: how long the proved machine and the engines take, side by side. Where they do not do the same, it ends with status 1 and
//! no times.

use std::process::ExitCode;

use ration::{journal, Host, WritePolicy, HEADER, RECORD};
use speed::cases::{self, Case, RECORDS};
use speed::clock::{side_by_side, Timed, Times, ROUNDS};
use speed::machines::{self, Named};
use speed::parts::{InJournals, InPieces, Judged};
use speed::same::run_all;

fn main() -> ExitCode {
    match measure(&cases::all()) {
        Ok(()) => ExitCode::SUCCESS,
        Err(what) => {
            eprintln!("speed: {what}");
            ExitCode::FAILURE
        }
    }
}

fn measure(cases: &[Case]) -> Result<(), String> {
    let prepared: Result<Vec<_>, String> = cases.iter().map(prepare).collect();
    let mut all: Vec<Timed> = prepared?.into_iter().flatten().collect();
    let states: Vec<_> = all.iter().map(|timed| timed.machine.bytes()).collect();
    let times = side_by_side(&mut all);
    if all.iter().zip(states).any(|(timed, state)| timed.machine.bytes() != state) {
        return Err("a run did not lead back to its start".into());
    }
    println!("{RECORDS} records a run, {ROUNDS} runs of each, in turn");
    println!("the median, what that is for a record, and where the middle half of the runs lies");
    let mut heading = "";
    for (timed, found) in all.iter().zip(&times) {
        if timed.case != heading {
            heading = timed.case;
            println!("\n{heading}");
        }
        tell(timed, found);
    }
    Ok(())
}

/// The machines of a policy where the case's journal starts, and is timed: it is run once, and they must do the same.
fn started(case: &Case, policy: WritePolicy) -> Result<Vec<Named>, String> {
    let mut machines = machines::fresh_with(policy);
    for journal in [&case.before, &case.timed] {
        run_all(&mut machines, journal, journal.len())
            .map_err(|what| format!("{}, {policy}: {what}", case.what))?;
    }
    Ok(machines)
}

/// The case's journal on each machine, with write-back; on the proved one a journal without a record, which says what a run costs
/// before its first one, nearly all of it the test of validity; there the journal in parts, and with write-through; and its start
/// judged and checked, with no journal.
fn prepare(case: &Case) -> Result<Vec<Timed>, String> {
    let [machines, others] = WritePolicy::ALL.map(|policy| started(case, policy));
    let (machines, (_, through)) = (machines?, others?.swap_remove(0));
    let start = Host::from_bytes(machines[0].1.bytes());
    let timed = |name, machine, journal: &[u8]| Timed {
        case: case.what,
        name,
        machine,
        journal: journal.to_vec(),
    };
    let runs = machines.into_iter().map(|(name, machine)| timed(name, machine, &case.timed));
    let mut all: Vec<Timed> = runs.collect();
    all.insert(1, timed("  without a record", Box::new(start.clone()), &journal(&[])));
    all.insert(2, timed("  with write-through", through, &case.timed));
    for (name, by_rules) in [("  checked, rule by rule", true), ("  judged", false)] {
        all.insert(2, timed(name, Box::new(Judged::new(start.clone(), by_rules)), &journal(&[])));
    }
    for (name, machine) in in_parts(case, &start)?.into_iter().skip(1).rev() {
        all.insert(2, timed(name, machine, &case.timed));
    }
    Ok(all)
}

/// The proved machine on the case's journal whole, as short journals and as pieces of one, where these do the same.
fn in_parts(case: &Case, start: &Host) -> Result<Vec<Named>, String> {
    let mut machines: Vec<Named> = vec![
        ("whole", Box::new(start.clone())),
        ("  in journals of 512", Box::new(InJournals::new(start.clone(), &case.timed))),
        ("  in pieces of 512", Box::new(InPieces::new(start.clone()))),
    ];
    run_all(&mut machines, &case.timed, case.timed.len())
        .map_err(|what| format!("{}: {what}", case.what))?;
    Ok(machines)
}

fn tell(timed: &Timed, found: &Times) {
    let [low, median, high] =
        [found.low, found.median, found.high].map(|time| time.as_nanos() as f64 / 1000.0);
    let each = match (timed.journal.len() - HEADER) / RECORD {
        0 => String::new(),
        records => format!("{:.2} ns", median * 1000.0 / records as f64),
    };
    println!("{:<24}{median:8.1} us{each:>12}   {low:.1} to {high:.1} us", timed.name);
}

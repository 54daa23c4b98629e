//! Tasks of the program `probe`: their bytes, and what the second program makes of them in the same bytes.

use second::image::{load, open, save};
use second::{begin, fresh_with, rules, run_journal, step, Kept, Policy, State, KEPT, STATE_BYTES};

use crate::checks::{checked, reported, CHECKED, REPORTED};
use crate::feeds::Feed;

/// What a journal is run on.
#[derive(Clone)]
pub enum On {
    /// The fresh machine, started with a policy.
    Fresh(Policy),
    Machine(Vec<u8>),
}

impl On {
    pub fn state(&self) -> State {
        match self {
            On::Fresh(policy) => fresh_with(*policy),
            On::Machine(machine) => State::from_bytes(machine),
        }
    }
}

pub enum Task {
    /// A journal with an answer buffer.
    Run { on: On, journal: Vec<u8>, buffer: Vec<u8> },
    /// The rules on a machine, and one step.
    Judge { machine: Vec<u8>, record: Vec<u8> },
    /// An image over a machine, whatever it holds.
    Open { machine: Vec<u8>, image: Vec<u8> },
    /// An image over a machine, judged.
    Load { machine: Vec<u8>, image: Vec<u8> },
    /// A machine into a buffer.
    Save { machine: Vec<u8>, buffer: Vec<u8> },
    /// A piece of a journal.
    Feed(Feed),
    /// What is kept, made anew.
    Begin { kept: Kept },
    /// Each rule of a machine, and numbers that are none's.
    Check { machine: Vec<u8> },
    /// The text of `--check` of an image, into a buffer.
    Report { image: Vec<u8>, buffer: Vec<u8> },
}

/// A task, and what made it.
pub struct Item {
    pub profile: &'static str,
    pub seed: u64,
    pub task: Task,
}

/// Number and report, before the answers.
pub const VERDICT: usize = 9;
/// Eleven rules and validity.
pub const RULES: usize = second::RULES + 1;
/// Number and value of a step.
pub const ANSWER: usize = 5;
/// The number alone, of what is done with an image.
pub const NUMBER: usize = 1;

impl Task {
    pub fn bytes(&self) -> Vec<u8> {
        match self {
            Task::Run { on: On::Fresh(policy), journal, buffer } => {
                let mut head = head(0, journal, buffer);
                head[1] = policy.byte();
                [&head[..], journal, buffer].concat()
            }
            Task::Run { on: On::Machine(machine), journal, buffer } => {
                [&head(1, journal, buffer)[..], machine, journal, buffer].concat()
            }
            Task::Judge { machine, record } => {
                [&head(2, record, &[])[..], machine, record].concat()
            }
            Task::Open { machine, image } => [&head(3, image, &[])[..], machine, image].concat(),
            Task::Load { machine, image } => [&head(4, image, &[])[..], machine, image].concat(),
            Task::Save { machine, buffer } => [&head(5, &[], buffer)[..], machine, buffer].concat(),
            Task::Feed(feed) => {
                let mut head = head(6, &feed.piece, &feed.buffer);
                head[1] = feed.last as u8;
                [&head[..], &feed.body()].concat()
            }
            Task::Begin { kept } => [&head(7, &[], &[])[..], kept].concat(),
            Task::Check { machine } => [&head(8, &[], &[])[..], machine].concat(),
            Task::Report { image, buffer } => [&head(9, image, buffer)[..], image, buffer].concat(),
        }
    }

    /// The policy that the fresh machine is started with, in words.
    pub fn started(&self) -> &'static str {
        match self {
            Task::Run { on: On::Fresh(Policy::WriteThrough), .. } => " on write-through",
            _ => "",
        }
    }

    pub fn result_size(&self) -> usize {
        match self {
            Task::Run { buffer, .. } => VERDICT + buffer.len() + STATE_BYTES,
            Task::Judge { .. } => RULES + ANSWER + STATE_BYTES,
            Task::Open { .. } | Task::Load { .. } => NUMBER + STATE_BYTES,
            Task::Save { buffer, .. } => NUMBER + buffer.len() + STATE_BYTES,
            Task::Feed(feed) => feed.result_size(),
            Task::Begin { .. } => KEPT,
            Task::Check { .. } => CHECKED,
            Task::Report { buffer, .. } => REPORTED + buffer.len(),
        }
    }

    /// What the second program says.
    pub fn expected(&self) -> Vec<u8> {
        match self {
            Task::Run { on, journal, buffer } => run(on.state(), journal, buffer),
            Task::Judge { machine, record } => judge(machine, record),
            Task::Open { machine, image } => taken(open, machine, image),
            Task::Load { machine, image } => taken(load, machine, image),
            Task::Save { machine, buffer } => saved(machine, buffer),
            Task::Feed(feed) => feed.expected(),
            Task::Begin { kept } => begun(*kept),
            Task::Check { machine } => checked(machine),
            Task::Report { image, buffer } => reported(image, buffer),
        }
    }
}

fn head(kind: u8, input: &[u8], buffer: &[u8]) -> [u8; 6] {
    let [a, b] = sixteen(input.len());
    let [c, d] = sixteen(buffer.len());
    [kind, 0, a, b, c, d]
}

fn sixteen(number: usize) -> [u8; 2] {
    u16::try_from(number).expect("at most 65,535 bytes").to_le_bytes()
}

fn run(mut state: State, journal: &[u8], buffer: &[u8]) -> Vec<u8> {
    let mut answers = buffer.to_vec();
    let (number, report) = match run_journal(&mut state, journal, &mut answers) {
        Ok(report) => (0, report),
        Err(number) => (number, second::Report::default()),
    };
    let mut out = vec![number];
    for count in [report.taken, report.accepted, report.refused, report.left_over] {
        out.extend(sixteen(count));
    }
    [out, answers, state.to_bytes()].concat()
}

fn judge(machine: &[u8], record: &[u8]) -> Vec<u8> {
    let mut state = State::from_bytes(machine);
    let holds = rules(&state);
    let mut out: Vec<u8> = holds.iter().map(|holds| *holds as u8).collect();
    out.push(second::valid(&state) as u8);
    let (number, value) = step(&mut state, record);
    out.push(number);
    out.extend(value.to_le_bytes());
    out.extend(state.to_bytes());
    out
}

fn number(outcome: Result<(), u8>) -> u8 {
    outcome.err().unwrap_or(0)
}

fn taken(by: fn(&mut State, &[u8]) -> Result<(), u8>, machine: &[u8], image: &[u8]) -> Vec<u8> {
    let mut state = State::from_bytes(machine);
    let number = number(by(&mut state, image));
    [vec![number], state.to_bytes()].concat()
}

fn saved(machine: &[u8], buffer: &[u8]) -> Vec<u8> {
    let state = State::from_bytes(machine);
    let mut buffer = buffer.to_vec();
    let number = number(save(&state, &mut buffer));
    [vec![number], buffer, state.to_bytes()].concat()
}

fn begun(mut kept: Kept) -> Vec<u8> {
    begin(&mut kept);
    kept.to_vec()
}

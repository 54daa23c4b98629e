//! The first difference of two results, in words.

use second::bytes::{FIELDS, OFFSETS};
use second::hex::to_hex;
use second::STATE_BYTES;

use crate::checks::{self, ASKED, TOLD};
use crate::feeds::{Feed, Given};
use crate::hosts::{self, Files, Left};
use crate::task::{Task, ANSWER, NUMBER, RULES, VERDICT};

/// The number of the field that has this byte of a state.
pub fn field(at: usize) -> usize {
    OFFSETS.iter().rposition(|start| *start <= at).unwrap_or(0)
}

/// None where both are the same.
pub fn of_results(task: &Task, ours: &[u8], second: &[u8]) -> Option<String> {
    if ours == second {
        return None;
    }
    if ours.len() != second.len() {
        return Some(both("bytes of the result", ours.len(), second.len()));
    }
    Some(match task {
        Task::Run { journal, .. } => of_runs(journal, ours, second),
        Task::Judge { machine, record } => {
            let start = of_judgements(ours, second);
            format!("{start}\n  record {}\n  machine {}", to_hex(record), to_hex(machine))
        }
        Task::Open { machine, image } | Task::Load { machine, image } => {
            let start = of_images(ours, second);
            format!("{start}\n  image {}\n  machine {}", to_hex(image), to_hex(machine))
        }
        Task::Save { machine, buffer } => {
            let start = of_images(ours, second);
            format!("{start}\n  {} bytes of buffer\n  machine {}", buffer.len(), to_hex(machine))
        }
        Task::Feed(feed) => format!("{}{}", of_calls(ours, second), call(feed)),
        Task::Begin { kept } => {
            both(&format!("begin over {}", to_hex(kept)), to_hex(ours), to_hex(second))
        }
        Task::Check { machine } => {
            format!("{}\n  machine {}", of_checks(ours, second), to_hex(machine))
        }
        Task::Report { image, buffer } => {
            let start = of_reports(ours, second);
            format!("{start}\n  {} bytes of buffer\n  image {}", buffer.len(), to_hex(image))
        }
    })
}

fn both(what: &str, ours: impl std::fmt::Display, second: impl std::fmt::Display) -> String {
    format!("{what}\n  ours:   {ours}\n  second: {second}")
}

fn of_runs(journal: &[u8], ours: &[u8], second: &[u8]) -> String {
    if ours[..VERDICT] != second[..VERDICT] {
        return both("verdict and report", report(ours), report(second));
    }
    let end = ours.len() - STATE_BYTES;
    let answers = (VERDICT..end)
        .step_by(8)
        .find(|at| ours[*at..end.min(at + 8)] != second[*at..end.min(at + 8)]);
    let Some(at) = answers else { return of_states(&ours[end..], &second[end..]) };
    let n = (at - VERDICT) / 8;
    let (ours, second) = (&ours[at..end.min(at + 8)], &second[at..end.min(at + 8)]);
    match journal.get(8 + 8 * n..16 + 8 * n) {
        Some(record) if ours.len() == 8 => {
            let what = format!("record {}: {}", n + 1, to_hex(record));
            both(&what, line(n, ours), line(n, second))
        }
        _ => both(&format!("answer buffer from byte {}", 8 * n), to_hex(ours), to_hex(second)),
    }
}

fn report(result: &[u8]) -> String {
    let count = |i: usize| u16::from_le_bytes([result[i], result[i + 1]]);
    format!(
        "number {}, taken {}, accepted {}, refused {}, left over {}",
        result[0],
        count(1),
        count(3),
        count(5),
        count(7)
    )
}

/// As the program prints it, and its bytes.
fn line(n: usize, answer: &[u8]) -> String {
    let value = u32::from_le_bytes([answer[4], answer[5], answer[6], answer[7]]);
    format!("{} {} {value} ({})", n + 1, answer[0], to_hex(answer))
}

fn of_judgements(ours: &[u8], second: &[u8]) -> String {
    let head = RULES + ANSWER;
    if ours[..RULES] != second[..RULES] {
        return both(
            "rules 1 to 11 and validity",
            to_hex(&ours[..RULES]),
            to_hex(&second[..RULES]),
        );
    }
    if ours[..head] != second[..head] {
        return both("answer and value", to_hex(&ours[RULES..head]), to_hex(&second[RULES..head]));
    }
    of_states(&ours[head..], &second[head..])
}

/// Number, then the buffer where there is one, then the machine.
fn of_images(ours: &[u8], second: &[u8]) -> String {
    if ours[..NUMBER] != second[..NUMBER] {
        return both("number", ours[0], second[0]);
    }
    let end = ours.len() - STATE_BYTES;
    match (NUMBER..end).find(|at| ours[*at] != second[*at]) {
        Some(at) => both(&format!("byte {} of the buffer", at - NUMBER), ours[at], second[at]),
        None => of_states(&ours[end..], &second[end..]),
    }
}

/// Number and counts, then what is kept, then the buffer, then the machine.
fn of_calls(ours: &[u8], second: &[u8]) -> String {
    let (ours, second) = (Given::of(ours), Given::of(second));
    let counts = |of: &Given| format!("{}, {} records, {} bytes", of.number, of.records, of.bytes);
    if counts(&ours) != counts(&second) {
        return both("number, records run and bytes taken", counts(&ours), counts(&second));
    }
    if ours.kept != second.kept {
        return both("what is kept", to_hex(&ours.kept), to_hex(&second.kept));
    }
    match (0..ours.buffer.len()).find(|at| ours.buffer[*at] != second.buffer[*at]) {
        Some(at) => both(&format!("byte {at} of the buffer"), ours.buffer[at], second.buffer[at]),
        None => of_states(ours.machine, second.machine),
    }
}

/// The first rule number of which another thing is told.
fn of_checks(ours: &[u8], second: &[u8]) -> String {
    let told = ours.chunks(TOLD).zip(second.chunks(TOLD)).zip(ASKED);
    let other = told.into_iter().find(|((ours, second), _)| ours != second);
    other.map_or("none".into(), |((ours, second), rule)| {
        let what = format!("rule {rule}: answer, part and place");
        both(&what, to_hex(ours), to_hex(second))
    })
}

/// Status and bytes typed, then the text, then the rest of the buffer.
fn of_reports(ours: &[u8], second: &[u8]) -> String {
    let (ours, second) = (checks::Given::of(ours), checks::Given::of(second));
    let head = |of: &checks::Given| format!("{}, {} bytes", of.status, of.typed);
    let other = (0..ours.buffer.len()).find(|at| ours.buffer[*at] != second.buffer[*at]);
    match (of_texts(ours.text(), second.text()), other) {
        (Some(text), _) => text,
        (None, Some(at)) if head(&ours) == head(&second) => {
            both(&format!("byte {at} of the buffer"), ours.buffer[at], second.buffer[at])
        }
        _ => both("status and bytes typed", head(&ours), head(&second)),
    }
}

fn call(feed: &Feed) -> String {
    let Feed { machine, kept, piece, allowance, last, buffer } = feed;
    format!(
        "\n  allowance {allowance}, last {last}, {} bytes of buffer\n  kept {}\n  piece {}\n  machine {}",
        buffer.len(),
        to_hex(kept),
        to_hex(piece),
        to_hex(machine)
    )
}

fn of_states(ours: &[u8], second: &[u8]) -> String {
    let Some(at) = (0..STATE_BYTES).find(|i| ours[*i] != second[*i]) else {
        return "none".into();
    };
    both(&place(at), ours[at], second[at])
}

/// A byte of a state, in words.
pub fn place(at: usize) -> String {
    let field = field(at);
    format!("state, byte {at}: {} at {}", FIELDS[field], at - OFFSETS[field])
}

/// The first line that is not the same, counted from 1; None where all are.
pub fn of_texts(ours: &[u8], second: &[u8]) -> Option<String> {
    if ours == second {
        return None;
    }
    let lines = |text: &[u8]| -> Vec<String> {
        text.split(|byte| *byte == b'\n').map(|line| String::from_utf8_lossy(line).into()).collect()
    };
    let (ours, second) = (lines(ours), lines(second));
    let same = ours.iter().zip(&second).take_while(|(a, b)| a == b).count();
    let shown = |lines: &[String]| lines.get(same).map_or("(no line)".into(), |l| format!("{l:?}"));
    Some(both(&format!("line {}", same + 1), shown(&ours), shown(&second)))
}

/// The text first, then the status, then whether there was a message, then the files.
pub fn of_left(ours: &Left, second: &Left) -> Option<String> {
    if ours == second {
        return None;
    }
    let status = |left: &Left| String::from_utf8_lossy(&left.status).into_owned();
    let told = |left: &Left| left.message == hosts::TOLD;
    let text = of_texts(&ours.text, &second.text);
    Some(text.unwrap_or_else(|| {
        if ours.status != second.status {
            both("status", status(ours), status(second))
        } else if ours.message != second.message {
            both("a message", told(ours), told(second))
        } else {
            of_files(&ours.files, &second.files)
        }
    }))
}

fn of_files(ours: &Files, second: &Files) -> String {
    let names = |files: &Files| files.keys().cloned().collect::<Vec<_>>().join(", ");
    let other = ours.iter().zip(second).find(|(ours, second)| ours != second);
    match other {
        Some(((name, a), (other, b))) if name == other => {
            let at = a.iter().zip(b).take_while(|(a, b)| a == b).count();
            let shown = |bytes: &[u8]| format!("{:?} of {} bytes", bytes.get(at), bytes.len());
            both(&format!("file {name}, byte {at}"), shown(a), shown(b))
        }
        _ => both("files", names(ours), names(second)),
    }
}

//! The program: what it prints and saves, and its status.

use std::fmt::Write;

use crate::image::image_of;
use crate::journal::{answer_bytes, run_journal, Report};
use crate::start::Start;
use crate::state::State;

#[derive(PartialEq, Eq, Debug)]
pub struct Ended {
    pub text: String,
    pub status: u8,
    /// The image of the state after the journal; None where nothing was run.
    pub saved: Option<Vec<u8>>,
}

impl Ended {
    pub fn refused(number: u8) -> Ended {
        Ended { text: format!("refused {number}\n"), status: 1, saved: None }
    }

    /// Nothing is run or printed.
    pub fn wrong_use() -> Ended {
        Ended { text: String::new(), status: 2, saved: None }
    }
}

/// A whole journal, from a start.
pub fn program(start: Start, journal: &[u8]) -> Ended {
    start.state().map_or_else(|ended| ended, |state| run(state, journal))
}

fn run(mut state: State, journal: &[u8]) -> Ended {
    let mut answers = vec![0; answer_bytes(journal)];
    match run_journal(&mut state, journal, &mut answers) {
        Ok(report) => {
            let text = listing(&report, &answers);
            Ended { text, status: 0, saved: Some(image_of(&state)) }
        }
        Err(number) => Ended::refused(number),
    }
}

/// What the program prints for its standard input, with no option.
pub fn program_output(journal: &[u8]) -> String {
    program(Start::default(), journal).text
}

fn listing(report: &Report, answers: &[u8]) -> String {
    let mut out = String::from("RPJ 1\n");
    for (i, answer) in answers.chunks_exact(8).enumerate() {
        let value = u32::from_le_bytes(answer[4..].try_into().unwrap());
        let _ = writeln!(out, "{} {} {}", i + 1, answer[0], value);
    }
    if report.left_over > 0 {
        let _ = writeln!(out, "cut {}", report.left_over);
    }
    let _ = writeln!(out, "done {} refused {}", report.accepted, report.refused);
    out
}

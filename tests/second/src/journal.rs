//! Journals: a header, then records.

use crate::rules::valid;
use crate::state::State;
use crate::step::step;

/// The mark, version 1 as 16 bits low byte first, three zero bytes.
pub const HEADER: [u8; 8] = *b"RPJ\x01\x00\x00\x00\x00";

pub const MOST_RECORDS: usize = 4096;

#[derive(Clone, Copy, PartialEq, Eq, Debug, Default)]
pub struct Report {
    pub taken: usize,
    pub accepted: usize,
    pub refused: usize,
    pub left_over: usize,
}

/// Runs a journal; Err is a refusal of the whole journal, which changes nothing.
pub fn run_journal(state: &mut State, journal: &[u8], answers: &mut [u8]) -> Result<Report, u8> {
    if !valid(state) {
        return Err(1);
    }
    let body = journal.strip_prefix(&HEADER).ok_or(13)?;
    let taken = body.len() / 8;
    if taken > MOST_RECORDS {
        return Err(14);
    }
    if answers.len() < 8 * taken {
        return Err(15);
    }
    let mut report = Report { taken, left_over: body.len() % 8, ..Report::default() };
    for (record, answer) in body.chunks_exact(8).zip(answers.chunks_exact_mut(8)) {
        let (number, value) = step(state, record);
        put_answer(answer, number, value);
        if number == 0 {
            report.accepted += 1;
        } else {
            report.refused += 1;
        }
    }
    Ok(report)
}

pub fn put_answer(answer: &mut [u8], number: u8, value: u32) {
    answer[..4].copy_from_slice(&[number, 0, 0, 0]);
    answer[4..].copy_from_slice(&value.to_le_bytes());
}

/// The bytes that answers to a journal take up, were it accepted.
pub fn answer_bytes(journal: &[u8]) -> usize {
    journal.len().saturating_sub(HEADER.len()) / 8 * 8
}

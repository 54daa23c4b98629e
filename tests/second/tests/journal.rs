//! Journals at their edges.

mod support;

use second::state::Mode;
use second::{fresh, program_output, run_journal, Report, State, HEADER};
use support::{journal, nine, silent_journal};

/// Runs on a fresh machine with a marked buffer; a refusal must change nothing.
fn run(bytes: &[u8], buffer: usize) -> (Result<Report, u8>, State, Vec<u8>) {
    let mut state = fresh();
    let mut answers = vec![0xEE; buffer];
    let outcome = run_journal(&mut state, bytes, &mut answers);
    if outcome.is_err() {
        assert_eq!(state, fresh());
        assert!(answers.iter().all(|byte| *byte == 0xEE));
    }
    (outcome, state, answers)
}

fn report(taken: usize, accepted: usize, refused: usize, left_over: usize) -> Report {
    Report { taken, accepted, refused, left_over }
}

#[test]
fn eight_bytes_take_no_records() {
    let (outcome, state, _) = run(&HEADER, 0);
    assert_eq!(outcome, Ok(report(0, 0, 0, 0)));
    assert_eq!(state, fresh());
    assert_eq!(program_output(&HEADER), "RPJ 1\ndone 0 refused 0\n");
}

#[test]
fn longest_and_one_more() {
    let longest = silent_journal(4096, 7);
    assert_eq!(longest.len(), 32_783);
    assert_eq!(run(&longest, 32_768).0, Ok(report(4096, 4096, 0, 7)));
    assert!(program_output(&longest).ends_with("4096 0 0\ncut 7\ndone 4096 refused 0\n"));
    let longer = silent_journal(4096, 8);
    assert_eq!(longer.len(), 32_784);
    assert_eq!(run(&longer, 40_000).0, Err(14));
    assert_eq!(program_output(&longer), "refused 14\n");
}

#[test]
fn left_over_bytes_are_not_run() {
    for more in 0..8 {
        let bytes = silent_journal(2, more);
        assert_eq!(run(&bytes, 16).0, Ok(report(2, 2, 0, more)));
        let text = program_output(&bytes);
        assert_eq!(text.contains("cut"), more > 0);
    }
    let mut bytes = HEADER.to_vec();
    bytes.extend([11, 0, 0, 0, 0, 0, 0]);
    let (outcome, state, _) = run(&bytes, 0);
    assert_eq!(outcome, Ok(report(0, 0, 0, 7)));
    assert_eq!(state.mode, Mode::Running);
}

#[test]
fn buffer_exact_and_one_byte_short() {
    let bytes = journal(&nine());
    assert_eq!(run(&bytes, 71).0, Err(15));
    assert_eq!(run(&bytes, 72).0, Ok(report(9, 8, 1, 0)));
    assert_eq!(run(&silent_journal(1, 7), 7).0, Err(15));
    assert_eq!(run(&silent_journal(0, 7), 0).0, Ok(report(0, 0, 0, 7)));
}

#[test]
fn answers_stand_where_they_belong_and_the_rest_stays() {
    let (outcome, _, answers) = run(&journal(&nine()), 100);
    assert_eq!(outcome, Ok(report(9, 8, 1, 0)));
    assert_eq!(answers[..56], [0; 56]);
    assert_eq!(answers[56..64], [0, 0, 0, 0, 0x2C, 1, 0, 0]);
    assert_eq!(answers[64..72], [6, 0, 0, 0, 0, 0, 0, 0]);
    assert!(answers[72..].iter().all(|byte| *byte == 0xEE));
}

#[test]
fn refusals_in_their_order() {
    let mut too_long = silent_journal(4097, 0);
    assert_eq!(run(&too_long, 0).0, Err(14));
    too_long[0] = b'r';
    assert_eq!(run(&too_long, 0).0, Err(13));
    let mut short_buffer = silent_journal(1, 0);
    assert_eq!(run(&short_buffer, 0).0, Err(15));
    short_buffer[7] = 1;
    assert_eq!(run(&short_buffer, 0).0, Err(13));
    let mut broken = fresh();
    broken.active = 4;
    let before = broken.clone();
    assert_eq!(run_journal(&mut broken, &too_long, &mut []), Err(1));
    assert_eq!(broken, before);
}

#[test]
fn headers_that_are_not_ours() {
    for at in 0..8 {
        let mut bytes = silent_journal(1, 0);
        bytes[at] ^= 1;
        assert_eq!(run(&bytes, 8).0, Err(13), "byte {at}");
    }
    let mut version = silent_journal(1, 0);
    version[3..5].copy_from_slice(&[0, 1]);
    assert_eq!(run(&version, 8).0, Err(13));
}

#[test]
fn input_that_ends_inside_the_header() {
    for length in 0..8 {
        assert_eq!(run(&HEADER[..length], 8).0, Err(13), "{length} bytes");
        assert_eq!(program_output(&HEADER[..length]), "refused 13\n");
    }
}

#[test]
fn a_refused_record_does_not_stop_the_run() {
    let records = [[16, 0, 0, 0, 0, 0, 0, 0], [12, 0, 0, 0, 0, 0, 0, 0], [11, 0, 0, 0, 0, 0, 0, 0]];
    let (outcome, state, answers) = run(&journal(&records), 24);
    assert_eq!(outcome, Ok(report(3, 1, 2, 0)));
    assert_eq!((answers[0], answers[8], answers[16]), (2, 3, 0));
    assert_eq!(state.mode, Mode::Waiting);
}

#[test]
fn a_prefix_gives_the_same_answers() {
    let bytes = second::gen::journal(3, 60, "near").unwrap();
    let whole = run(&bytes, 480).2;
    for n in 0..=60 {
        let (outcome, _, answers) = run(&bytes[..8 + 8 * n], 480);
        assert_eq!(outcome.unwrap().taken, n);
        assert_eq!(answers[..8 * n], whole[..8 * n]);
    }
}

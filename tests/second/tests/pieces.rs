//! Journals in pieces: what a piece is answered, what is taken, run and kept, and what a refusal leaves.

mod support;

use second::journal::answer_bytes;
use second::{begin, feed, fresh, run_journal, Fed, Kept, State, HEADER};
use support::pieces::{done, kept, refused, Host, MARK, MOST};
use support::{after_nine, journal, nine, silent_journal};

/// The nine records, and three bytes of a tenth.
fn nine_and_three() -> Vec<u8> {
    [journal(&nine()), vec![10, 2, 1]].concat()
}

/// State and answers of a journal's run as a whole.
fn whole_run(bytes: &[u8]) -> (State, Vec<u8>) {
    let (mut state, mut answers) = (fresh(), vec![0; answer_bytes(bytes)]);
    run_journal(&mut state, bytes, &mut answers).unwrap();
    (state, answers)
}

#[test]
fn begin_makes_all_nine_zero() {
    for byte in [0, 1, 8, 255] {
        let mut kept = [byte; 9];
        begin(&mut kept);
        assert_eq!(kept, [0; 9]);
    }
}

#[test]
fn every_single_cut() {
    let bytes = nine_and_three();
    for cut in 0..=bytes.len() {
        let (first, second) = bytes.split_at(cut);
        let mut host = Host::fresh();
        let (header, records) = (cut.min(8), cut.saturating_sub(8) / 8);
        assert_eq!(host.feed(first, MOST, false, 80), done(records, cut), "cut {cut}");
        let begun = &first[header + 8 * records..];
        assert_eq!(host.kept, kept(header as u8, begun), "cut {cut}");
        let rest = done(9 - records, bytes.len() - cut);
        assert_eq!(host.feed(second, MOST, true, 80), rest, "cut {cut}");
        assert_eq!(host.kept, kept(8, &[10, 2, 1]));
        assert!(host.agrees());
        assert_eq!(host.answers.len(), 72);
        assert_eq!(host.state, after_nine().0);
    }
}

#[test]
fn every_two_cuts() {
    let bytes = journal(&nine());
    let (state, answers) = whole_run(&bytes);
    for one in 0..=bytes.len() {
        for other in one..=bytes.len() {
            let mut host = Host::fresh();
            for piece in [&bytes[..one], &bytes[one..other], &bytes[other..]] {
                assert_eq!(host.feed(piece, MOST, false, 72).bytes, piece.len());
            }
            assert!(host.state == state && host.answers == answers, "{one} {other}");
            assert_eq!(host.kept, kept(8, &[]));
        }
    }
}

#[test]
fn byte_by_byte() {
    let bytes = nine_and_three();
    let mut host = Host::fresh();
    for (at, byte) in bytes.iter().enumerate() {
        let completes = at >= 8 && at % 8 == 7;
        assert_eq!(host.feed(&[*byte], 1, false, 8), done(completes as usize, 1), "byte {at}");
        assert!(host.agrees(), "byte {at}");
    }
    assert_eq!(host.feed(&[], 1, true, 8), done(0, 0));
    assert!(host.agrees());
}

#[test]
fn every_allowance() {
    let bytes = nine_and_three();
    for allowance in [0, 1, 2, 3, 4, 5, 6, 7, 8] {
        let mut host = Host::fresh();
        // the header is taken whatever the allowance, and nothing behind the last record that was run
        assert_eq!(host.feed(&bytes, allowance, true, 80), done(allowance, 8 + 8 * allowance));
        assert_eq!(host.kept, kept(8, &[]));
        assert!(host.agrees());
        let rest = &bytes[8 + 8 * allowance..];
        assert_eq!(host.feed(rest, MOST, true, 80), done(9 - allowance, rest.len()));
        assert_eq!(host.kept, kept(8, &[10, 2, 1]));
        assert!(host.agrees() && host.state == after_nine().0);
    }
    for allowance in [9, 10, 4096, MOST - 1, MOST] {
        let mut host = Host::fresh();
        assert_eq!(host.feed(&bytes, allowance, false, 72), done(9, bytes.len()));
        assert_eq!(host.kept, kept(8, &[10, 2, 1]));
        assert!(host.agrees());
    }
}

#[test]
fn header_bytes_are_taken_without_an_allowance() {
    for before in 0..=8 {
        for piece in 0..=8 - before {
            let mut host = Host::keeping(kept(before as u8, &[]));
            assert_eq!(host.feed(&HEADER[before..before + piece], 0, false, 0), done(0, piece));
            assert_eq!(host.kept, kept((before + piece) as u8, &[]));
        }
        let mut host = Host::keeping(kept(before as u8, &[]));
        // eight bytes behind the header are a whole record, seven are not
        let piece = [&HEADER[before..], &[1; 8]].concat();
        assert_eq!(host.feed(&piece, 0, false, 0), done(0, 8 - before));
        assert_eq!(host.kept, kept(8, &[]));
        let mut host = Host::keeping(kept(before as u8, &[]));
        assert_eq!(host.feed(&piece[..15 - before], 0, false, 0), done(0, 15 - before));
        assert_eq!(host.kept, kept(8, &[1; 7]));
    }
}

/// Bytes of a begun record that all differ.
const BEGUN: [u8; 7] = [11, 22, 33, 44, 55, 66, 77];

#[test]
fn a_begun_record_without_an_allowance() {
    for begun in 0..8 {
        let before = kept(8, &BEGUN[..begun]);
        for piece in 0..24 {
            let bytes: Vec<u8> = (100..100 + piece as u8).collect();
            let mut host = Host::keeping(before);
            let fed = host.feed(&bytes, 0, piece % 2 == 0, 0);
            if begun + piece < 8 {
                assert_eq!(fed, done(0, piece));
                assert_eq!(host.kept, kept(8, &[&BEGUN[..begun], &bytes].concat()));
            } else {
                assert_eq!(fed, done(0, 0));
                assert_eq!(host.kept, before);
            }
        }
    }
}

#[test]
fn a_begun_record_is_completed_and_run() {
    let record = [3, 0, 0, 0, 44, 1, 0, 0];
    let more = [1, 0, 0, 0, 0, 0, 0, 0, 9, 9, 9];
    for begun in 1..8 {
        let piece = [&record[begun..], &more].concat();
        for (allowance, records, taken, left) in [
            (1, 1, 8 - begun, &[][..]),
            (2, 2, 19 - begun, &[9, 9, 9]),
            (3, 2, 19 - begun, &[9, 9, 9]),
        ] {
            let mut host = Host::of(after_nine().0, kept(8, &record[..begun]));
            let fed = host.feed(&piece, allowance, false, 16);
            assert_eq!(fed, done(records, taken), "begun {begun}, allowance {allowance}");
            assert_eq!(host.kept, kept(8, left));
            assert_eq!(host.state.cache[0].ways[0].value, 300);
            let answers = [[0; 8], [0, 0, 0, 0, 44, 1, 0, 0]].concat();
            assert_eq!(host.answers, answers[..8 * records]);
        }
    }
}

/// No call leaves this, but anyone may hand it in: the begun record is the first at hand, as ever.
#[test]
fn a_begun_record_with_a_short_header() {
    let stop = [11, 0, 0, 0, 0, 0, 0, 0];
    for header in 0..8 {
        for begun in 0..8 {
            let before = kept(header as u8, &stop[..begun]);
            for piece in 0..8 - header {
                let mut host = Host::keeping(before);
                let fed = host.feed(&HEADER[header..header + piece], 5, false, 0);
                assert_eq!(fed, done(0, piece));
                assert_eq!(host.kept, kept((header + piece) as u8, &stop[..begun]));
            }
            let piece = [&HEADER[header..], &stop[begun..], &[7, 7]].concat();
            let mut host = Host::keeping(before);
            assert_eq!(host.feed(&piece, 0, true, 8), done(0, 8 - header));
            assert_eq!(host.kept, kept(8, &stop[..begun]));
            let mut host = Host::keeping(before);
            assert_eq!(host.feed(&piece, 1, true, 8), done(1, piece.len()));
            assert_eq!(host.kept, kept(8, &[7, 7]));
            assert_eq!((host.answers, host.state.mode.byte()), (vec![0; 8], 0));
        }
    }
}

#[test]
fn answers_stand_at_the_start_in_each_call() {
    let bytes = journal(&nine());
    let (_, answers) = whole_run(&bytes);
    let (mut state, mut kept, mut at) = (fresh(), [0; 9], 8);
    let mut buffer = [MARK; 24];
    assert_eq!(feed(&mut state, &mut kept, &HEADER, 2, false, &mut buffer), done(0, 8));
    assert_eq!(buffer, [MARK; 24]);
    while at < bytes.len() {
        let before = buffer;
        let fed = feed(&mut state, &mut kept, &bytes[at..], 2, false, &mut buffer);
        assert!(fed.records > 0, "byte {at}");
        let (first, run) = (at - 8, 8 * fed.records);
        assert_eq!(buffer[..run], answers[first..first + run]);
        assert_eq!(buffer[run..], before[run..]);
        at += fed.bytes;
    }
}

#[test]
fn a_buffer_exact_and_one_byte_short() {
    let bytes = nine_and_three();
    for allowance in 0..12 {
        let run = allowance.min(9);
        for room in 0..90 {
            let mut host = Host::fresh();
            let fed = host.feed(&bytes, allowance, false, room);
            match room < 8 * run {
                true => assert_eq!((fed, host.kept), (refused(15), [0; 9])),
                false => assert_eq!(fed.records, run, "allowance {allowance}, room {room}"),
            }
        }
    }
    // a begun record that the piece completes counts too
    let mut host = Host::keeping(kept(8, &[0; 7]));
    assert_eq!(host.feed(&[0], 1, false, 7), refused(15));
    assert_eq!(host.feed(&[0], 1, false, 8), done(1, 1));
}

#[test]
fn there_is_no_limit_on_the_records() {
    let bytes = silent_journal(6000, 5);
    let mut host = Host::fresh();
    assert_eq!(host.feed(&bytes, MOST, true, 8 * 6000), done(6000, bytes.len()));
    assert_eq!(host.kept, kept(8, &[0; 5]));
    let mut host = Host::fresh();
    assert_eq!(host.feed(&bytes, 4097, true, 8 * 4097), done(4097, 8 + 8 * 4097));
    assert_eq!(host.feed(&bytes[8..], 4097, true, 8 * 4097 - 1), refused(15));
    assert_eq!(run_journal(&mut fresh(), &bytes, &mut vec![0; 8 * 6000]), Err(14));
}

#[test]
fn that_the_input_ends_is_not_remembered() {
    let bytes = nine_and_three();
    let mut host = Host::fresh();
    for piece in [&bytes[..20], &bytes[20..23], &[], &bytes[23..]] {
        assert_eq!(host.feed(piece, MOST, true, 80).bytes, piece.len());
    }
    assert!(host.agrees() && host.state == after_nine().0);
}

#[test]
fn an_empty_piece_changes_nothing() {
    for before in [kept(0, &[]), kept(5, &[]), kept(5, &BEGUN), kept(8, &[]), kept(8, &BEGUN[..3])]
    {
        let mut host = Host::of(after_nine().0, before);
        assert_eq!(host.feed(&[], MOST, false, 0), done(0, 0));
        assert_eq!((host.kept, host.state == after_nine().0), (before, true));
    }
    let fed = feed(&mut fresh(), &mut [8; 9], &[], 0, false, &mut []);
    assert_eq!(fed, Fed { number: 13, records: 0, bytes: 0 });
}

/// The bytes behind those that count are no reason to refuse, and are zeros once a call is done.
#[test]
fn what_is_kept_is_written_anew() {
    for begun in 0..8 {
        let mut before: Kept = [0xD7; 9];
        before[..2].copy_from_slice(&[8, begun as u8]);
        before[2..2 + begun].copy_from_slice(&BEGUN[..begun]);
        let mut host = Host::keeping(before);
        assert_eq!(host.feed(&[], 0, true, 0), done(0, 0));
        assert_eq!(host.kept, kept(8, &BEGUN[..begun]));
        let mut host = Host::keeping(before);
        assert_eq!(host.feed(&[1; 8], 1, false, 7), refused(15));
        assert_eq!(host.kept, before);
        assert_eq!(host.feed(&[1; 8], 0, false, 7), done(0, 0));
        assert_eq!(host.kept, kept(8, &BEGUN[..begun]));
        let mut host = Host::keeping(before);
        assert_eq!(host.feed(&[1; 16], 1, false, 8), done(1, 8 - begun));
        assert_eq!(host.kept, kept(8, &[]));
    }
}

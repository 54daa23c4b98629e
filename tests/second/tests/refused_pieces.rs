//! Journals in pieces: 1 and 13, what they leave and which comes first; and that the cuts do not matter.

mod support;

use second::gen::journal as generated;
use second::rng::Rng;
use second::{begin, damage, Kept, State, HEADER, STATE_BYTES};
use support::pieces::{done, kept, refused, Host, MOST};
use support::{after_nine, journal, nine};

/// What is kept once 13 was given.
fn spent(before: Kept) -> Kept {
    let mut spent = before;
    spent[0] = 255;
    spent
}

/// A piece that is refused with 13 on a machine in use, whatever the allowance, the buffer and the end of the input.
fn no_journal(before: Kept, piece: &[u8], lasts: &[bool]) {
    for last in lasts {
        for (allowance, room) in [(0, 0), (1, 0), (MOST, 0), (MOST, 100)] {
            let mut host = Host::of(after_nine().0, before);
            let fed = host.feed(piece, allowance, *last, room);
            assert_eq!(fed, refused(13), "{before:?} {piece:?} {last}");
            assert_eq!(host.kept, spent(before));
        }
    }
}

#[test]
fn a_wrong_header_byte_at_each_place_of_each_piece() {
    let bytes = journal(&nine());
    for place in 0..8 {
        for before in 0..=place {
            for change in [1, 0x20, 0x80, 0xFF] {
                let mut bytes = bytes.clone();
                bytes[place] ^= change;
                for end in [place + 1, 8, 12, 16, bytes.len()] {
                    // nothing of the piece is taken, however many right bytes lie before the wrong one
                    no_journal(kept(before as u8, &[]), &bytes[before..end], &[false, true]);
                }
                no_journal(kept(before as u8, &[1, 2, 3]), &bytes[before..], &[false, true]);
            }
        }
    }
}

#[test]
fn a_byte_behind_the_header_is_no_header_byte() {
    let mut host = Host::keeping(kept(8, &[]));
    assert_eq!(host.feed(&HEADER, 1, false, 8), done(1, 8));
    assert_eq!(host.answers[0], 2);
    let mut host = Host::keeping(kept(7, &[]));
    assert_eq!(host.feed(&[0, 82], 1, false, 8), done(0, 2));
    assert_eq!(host.kept, kept(8, &[82]));
}

#[test]
fn an_input_that_ends_inside_the_header() {
    for before in 0..8 {
        for end in before..8 {
            for begun in [&[][..], &[9, 8, 7, 6, 5, 4, 3]] {
                no_journal(kept(before as u8, begun), &HEADER[before..end], &[true]);
                let mut host = Host::keeping(kept(before as u8, begun));
                assert_eq!(host.feed(&HEADER[before..end], 0, false, 0), done(0, end - before));
                assert_eq!(host.kept, kept(end as u8, begun));
            }
        }
        let mut host = Host::keeping(kept(before as u8, &[]));
        assert_eq!(host.feed(&HEADER[before..], 0, true, 0), done(0, 8 - before));
    }
    let mut host = Host::keeping(kept(8, &[]));
    assert_eq!(host.feed(&[], 0, true, 0), done(0, 0));
}

#[test]
fn counts_that_are_out_of_range() {
    let right = journal(&nine());
    for piece in [&[][..], &HEADER, &right, &right[8..]] {
        for header in (9..16).chain([127, 128, 136, 254, 255]) {
            no_journal(kept(header, &[]), piece, &[false, true]);
            no_journal(kept(header, &[5; 7]), piece, &[false, true]);
        }
        for begun in (8..18).chain([127, 128, 135, 254, 255]) {
            for header in [0, 3, 8, 9, 255] {
                let mut before = [0x5A; 9];
                before[..2].copy_from_slice(&[header, begun]);
                let rest = piece.get(header.into()..).unwrap_or(&[]);
                no_journal(before, rest, &[false, true]);
            }
        }
    }
}

#[test]
fn no_journal_is_remembered_until_begin() {
    let bytes = journal(&nine());
    let mut host = Host::of(after_nine().0, kept(8, &[1, 2, 3]));
    host.kept[0] = 9;
    for piece in [&[][..], &HEADER, &bytes, &bytes[8..], &[0; 5]] {
        for last in [false, true] {
            assert_eq!(host.feed(piece, MOST, last, 100), refused(13));
            assert_eq!(host.kept, spent(kept(8, &[1, 2, 3])));
        }
    }
    begin(&mut host.kept);
    assert_eq!(host.feed(&bytes, MOST, true, 72), done(9, 80));
    let mut host = Host::fresh();
    assert_eq!(host.feed(b"RPJ\x01", MOST, false, 0), done(0, 4));
    assert_eq!(host.feed(&[0, 0, 1], MOST, false, 0), refused(13));
    assert_eq!(host.kept, spent(kept(4, &[])));
    assert_eq!(host.feed(&[0, 0, 0, 0], MOST, false, 0), refused(13));
}

#[test]
fn a_state_that_is_not_valid_comes_first() {
    let bytes = journal(&nine());
    let mut states = damage::states(5, 20);
    states.retain(|state| !second::valid(state));
    states.push(State::from_bytes(&[0xD7; STATE_BYTES]));
    for (i, state) in states.into_iter().enumerate() {
        for before in [kept(0, &[]), kept(8, &[4; 7]), [255; 9], kept(9, &[]), [8; 9], [3; 9]] {
            for piece in [&bytes[..], &bytes[8..], b"none", &[]] {
                let mut host = Host::of(state.clone(), before);
                let fed = host.feed(piece, [0, 1, MOST][i % 3], i % 2 == 0, 40 * (i % 2));
                assert_eq!((fed, host.kept), (refused(1), before));
            }
        }
    }
}

#[test]
fn no_journal_comes_before_a_buffer_too_short() {
    let bytes = journal(&nine());
    let mut wrong = bytes.clone();
    wrong[7] = 1;
    assert_eq!(Host::fresh().feed(&bytes, MOST, true, 0), refused(15));
    assert_eq!(Host::fresh().feed(&wrong, MOST, true, 0), refused(13));
}

/// A piece from where the input stands, an allowance and a buffer.
fn any_call(rng: &mut Rng, rest: usize) -> (usize, usize, usize) {
    let most = [3, 9, 40, 400][rng.below(4)];
    let allowance = [0, 1, 2, 3, 7, 50, MOST - 1, MOST][rng.below(8)];
    let room = [0, 7, 8, 24, 100, 500][rng.below(6)];
    (rng.below(most).min(rest), allowance, room)
}

#[test]
fn any_calls_agree_with_one_run() {
    for seed in 0..60 {
        let mut rng = Rng::new(seed);
        let profile = ["deep", "near", "noise"][seed as usize % 3];
        let bytes = [generated(seed, 60, profile).unwrap(), vec![1; rng.below(8)]].concat();
        let (mut host, mut at) = (Host::fresh(), 0);
        while at < bytes.len() {
            let (length, allowance, room) = any_call(&mut rng, bytes.len() - at);
            let before = host.kept;
            let fed = host.feed(&bytes[at..at + length], allowance, false, room);
            match fed.number {
                0 => assert!(fed.bytes > 0 || length == 0 || allowance == 0),
                number => assert_eq!((number, host.kept), (15, before)),
            }
            at += fed.bytes;
            assert!(host.agrees(), "seed {seed}, byte {at}");
        }
        assert_eq!(host.feed(&[], MOST, true, 0), done(0, 0));
        assert!(host.agrees() && host.taken == bytes);
    }
}

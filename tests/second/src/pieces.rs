//! Journals in pieces: what is kept from one piece to the next, and the records that a piece brings to an end.

use crate::journal::{put_answer, HEADER};
use crate::rules::valid;
use crate::state::State;
use crate::step::judge;

pub const KEPT: usize = 9;

/// How many header bytes were taken, how many bytes of a begun record are kept, and these, with zeros behind them.
pub type Kept = [u8; KEPT];

const MOST_BEGUN: usize = KEPT - 2;

/// The header's count once a piece was refused with 13; no header has so many bytes.
const NO_JOURNAL: u8 = 255;

/// The number, how many records were run, how many bytes of the piece were taken.
#[derive(Clone, Copy, PartialEq, Eq, Debug)]
pub struct Fed {
    pub number: u8,
    pub records: usize,
    pub bytes: usize,
}

pub fn begin(kept: &mut Kept) {
    *kept = [0; KEPT];
}

/// Runs what has arrived, as many records as are allowed. `last` says that the input ends with this piece.
pub fn feed(
    state: &mut State,
    kept: &mut Kept,
    piece: &[u8],
    allowance: usize,
    last: bool,
    answers: &mut [u8],
) -> Fed {
    if !valid(state) {
        return refused(1);
    }
    let Some(Arrived { header, begun, rest }) = arrived(kept, piece, last) else {
        kept[0] = NO_JOURNAL;
        return refused(13);
    };
    let at_hand = [&begun[..], rest].concat();
    let whole = at_hand.len() / 8;
    let records = whole.min(allowance);
    if answers.len() < 8 * records {
        return refused(15);
    }
    let pairs = at_hand.chunks_exact(8).zip(answers.chunks_exact_mut(8));
    for (record, answer) in pairs.take(records) {
        let (number, value) = judge(state, record);
        put_answer(answer, number, value);
    }
    let header_bytes = piece.len() - rest.len();
    let (bytes, left): (usize, &[u8]) = match records {
        _ if records == whole => (piece.len(), &at_hand[8 * records..]),
        0 => (header_bytes, &begun),
        _ => (header_bytes + 8 * records - begun.len(), &[]),
    };
    *kept = kept_of(header, left);
    Fed { number: 0, records, bytes }
}

fn refused(number: u8) -> Fed {
    Fed { number, records: 0, bytes: 0 }
}

fn kept_of(header: usize, begun: &[u8]) -> Kept {
    let mut kept = [0; KEPT];
    kept[0] = header as u8;
    kept[1] = begun.len() as u8;
    kept[2..2 + begun.len()].copy_from_slice(begun);
    kept
}

struct Arrived<'a> {
    /// How many header bytes there are with this piece.
    header: usize,
    begun: Vec<u8>,
    /// The piece without its header bytes.
    rest: &'a [u8],
}

/// None where this is no journal.
fn arrived<'a>(kept: &Kept, piece: &'a [u8], last: bool) -> Option<Arrived<'a>> {
    let [before, begun] = [kept[0], kept[1]].map(usize::from);
    if before > HEADER.len() || begun > MOST_BEGUN {
        return None;
    }
    let awaited = &HEADER[before..];
    let (bytes, rest) = piece.split_at(awaited.len().min(piece.len()));
    let header = before + bytes.len();
    if !awaited.starts_with(bytes) || (last && header < HEADER.len()) {
        return None;
    }
    Some(Arrived { header, begun: kept[2..2 + begun].to_vec(), rest })
}

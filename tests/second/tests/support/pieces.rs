//! A host that is fed pieces, with all that it took and answered.

use second::{feed, fresh, run_journal, Fed, Kept, State, HEADER, KEPT};

/// More records than there can be.
pub const MOST: usize = usize::MAX;

/// What an answer buffer holds before.
pub const MARK: u8 = 0xEE;

pub struct Host {
    pub state: State,
    pub kept: Kept,
    /// All bytes that were taken.
    pub taken: Vec<u8>,
    /// All answers that were given.
    pub answers: Vec<u8>,
}

impl Host {
    pub fn of(state: State, kept: Kept) -> Host {
        Host { state, kept, taken: Vec::new(), answers: Vec::new() }
    }

    pub fn keeping(kept: Kept) -> Host {
        Host::of(fresh(), kept)
    }

    /// The fresh machine, and what begin keeps.
    pub fn fresh() -> Host {
        Host::keeping([0; KEPT])
    }

    /// Into a marked buffer, of which no more than the answers may change; a refusal must change nothing, but for byte 0 of
    /// what is kept.
    pub fn feed(&mut self, piece: &[u8], allowance: usize, last: bool, room: usize) -> Fed {
        let mut buffer = vec![MARK; room];
        let (state, kept) = (self.state.clone(), self.kept);
        let fed = feed(&mut self.state, &mut self.kept, piece, allowance, last, &mut buffer);
        let (answers, rest) = buffer.split_at(8 * fed.records);
        assert!(rest.iter().all(|byte| *byte == MARK));
        assert!(fed.records <= allowance && fed.bytes <= piece.len());
        if fed.number != 0 {
            assert!(self.state == state && fed == refused(fed.number));
            assert_eq!(self.kept[1..], kept[1..]);
            assert_eq!(self.kept[0], if fed.number == 13 { 255 } else { kept[0] });
        }
        self.taken.extend(&piece[..fed.bytes]);
        self.answers.extend(answers);
        fed
    }

    /// Whether state, answers and what is kept are those of one run over all that was taken since the fresh machine.
    pub fn agrees(&self) -> bool {
        let header = self.taken.len().min(HEADER.len());
        let (start, body) = self.taken.split_at(header);
        let records = body.len() / 8;
        let (mut state, mut answers) = (fresh(), vec![0; 8 * records]);
        let journal = [&HEADER, &body[..8 * records]].concat();
        run_journal(&mut state, &journal, &mut answers).is_ok()
            && HEADER.starts_with(start)
            && self.state == state
            && self.answers == answers
            && self.kept == kept(header as u8, &body[8 * records..])
    }
}

pub fn done(records: usize, bytes: usize) -> Fed {
    Fed { number: 0, records, bytes }
}

pub fn refused(number: u8) -> Fed {
    Fed { number, records: 0, bytes: 0 }
}

/// So many header bytes, and a begun record.
pub fn kept(header: u8, begun: &[u8]) -> Kept {
    let mut kept = [0; KEPT];
    kept[..2].copy_from_slice(&[header, begun.len() as u8]);
    kept[2..2 + begun.len()].copy_from_slice(begun);
    kept
}

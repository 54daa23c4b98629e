//! The program as its journal arrives: what it prints after each piece, and what it saves in the end.

use std::fmt::Write;

use crate::image::image_of;
use crate::pieces::{begin, feed, Kept, KEPT};
use crate::program::Ended;
use crate::start::Start;
use crate::state::State;

const WHOLE_HEADER: u8 = 8;

pub struct Stream {
    state: State,
    kept: Kept,
    answers: Vec<u8>,
    accepted: u64,
    refused: u64,
}

impl Stream {
    /// Err is how the program ends before any of the journal is read.
    pub fn new(start: Start) -> Result<Stream, Ended> {
        let (state, mut kept) = (start.state()?, [0; KEPT]);
        begin(&mut kept);
        Ok(Stream { state, kept, answers: Vec::new(), accepted: 0, refused: 0 })
    }

    /// Runs all that a piece brings, and gives what is printed then; Err is a refusal of the journal.
    pub fn take(&mut self, piece: &[u8], last: bool) -> Result<String, u8> {
        let before = self.kept[0];
        // with a begun record there may be one more than the piece alone has
        self.answers.resize(8 * (piece.len() / 8 + 1), 0);
        let Stream { state, kept, answers, .. } = self;
        let fed = feed(state, kept, piece, usize::MAX, last, answers);
        if fed.number != 0 {
            return Err(fed.number);
        }
        assert_eq!(fed.bytes, piece.len(), "all is taken where all may be run");
        let mut text = String::new();
        if before < WHOLE_HEADER && self.kept[0] == WHOLE_HEADER {
            text.push_str("RPJ 1\n");
        }
        self.print_answers(fed.records, &mut text);
        if last {
            self.print_end(&mut text);
        }
        Ok(text)
    }

    fn print_answers(&mut self, records: usize, text: &mut String) {
        for answer in self.answers.chunks_exact(8).take(records) {
            match answer[0] {
                0 => self.accepted += 1,
                _ => self.refused += 1,
            }
            let value = u32::from_le_bytes([answer[4], answer[5], answer[6], answer[7]]);
            let _ = writeln!(text, "{} {} {value}", self.accepted + self.refused, answer[0]);
        }
    }

    fn print_end(&self, text: &mut String) {
        let left_over = self.kept[1];
        if left_over > 0 {
            let _ = writeln!(text, "cut {left_over}");
        }
        let _ = writeln!(text, "done {} refused {}", self.accepted, self.refused);
    }

    /// With the last of its text.
    pub fn ended(&self, text: String) -> Ended {
        Ended { text, status: 0, saved: Some(image_of(&self.state)) }
    }
}

/// A journal that comes in pieces of so many bytes, from a start.
pub fn streamed(start: Start, journal: &[u8], piece: usize) -> Ended {
    let ended = || {
        let mut stream = Stream::new(start)?;
        let texts: Result<String, u8> =
            journal.chunks(piece).map(|part| stream.take(part, false)).collect();
        let text = texts.and_then(|text| Ok(text + &stream.take(&[], true)?));
        text.map(|text| stream.ended(text)).map_err(Ended::refused)
    };
    ended().unwrap_or_else(|ended| ended)
}

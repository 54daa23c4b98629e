//! The proved machine on a journal in parts: as journals of their own, and as pieces of one; and where it runs none, but is judged or checked.

use ration::{Host, Kept, Refusal, Report, ANSWER, HEADER, RECORD, SIZE};

use crate::machines::Machine;

/// The records of a part.
pub const PART: usize = 512;

/// Each part behind a header of its own.
pub struct InJournals {
    host: Host,
    journals: Vec<Vec<u8>>,
}

impl InJournals {
    pub fn new(host: Host, journal: &[u8]) -> InJournals {
        let (header, body) = journal.split_at(HEADER);
        let parts = body.chunks(RECORD * PART);
        InJournals { host, journals: parts.map(|part| [header, part].concat()).collect() }
    }
}

impl Machine for InJournals {
    fn run(&mut self, _: &[u8], answers: &mut [u8]) -> Result<Report, Refusal> {
        let mut all = Report { taken: 0, accepted: 0, refused: 0, left_over: 0 };
        for (journal, answers) in self.journals.iter().zip(answers.chunks_mut(ANSWER * PART)) {
            let report = self.host.run(journal, answers)?;
            all.taken += report.taken;
            all.accepted += report.accepted;
            all.refused += report.refused;
            all.left_over = report.left_over;
        }
        Ok(all)
    }

    fn bytes(&self) -> [u8; SIZE] {
        *self.host.bytes()
    }
}

/// The first piece has the header too.
pub struct InPieces {
    host: Host,
}

impl InPieces {
    pub fn new(host: Host) -> InPieces {
        InPieces { host }
    }
}

impl Machine for InPieces {
    fn run(&mut self, journal: &[u8], answers: &mut [u8]) -> Result<Report, Refusal> {
        let mut kept = Kept::begin();
        let mut all = Report { taken: 0, accepted: 0, refused: 0, left_over: 0 };
        let (first, others) = journal.split_at(journal.len().min(HEADER + RECORD * PART));
        let pieces = std::iter::once(first).chain(others.chunks(RECORD * PART));
        for (piece, answers) in pieces.zip(answers.chunks_mut(ANSWER * PART)) {
            let fed = self.host.feed(&mut kept, piece, usize::MAX, false, answers)?;
            let given = answers[..ANSWER * fed.records].chunks_exact(ANSWER);
            all.taken += fed.records as u32;
            all.accepted += given.filter(|answer| answer[0] == 0).count() as u32;
        }
        all.refused = all.taken - all.accepted;
        all.left_over = kept.begun().len() as u32;
        Ok(all)
    }

    fn bytes(&self) -> [u8; SIZE] {
        *self.host.bytes()
    }
}

/// No journal is run: whether the host is valid, as one answer, or rule by rule.
pub struct Judged {
    host: Host,
    by_rules: bool,
}

impl Judged {
    pub fn new(host: Host, by_rules: bool) -> Judged {
        Judged { host, by_rules }
    }
}

impl Machine for Judged {
    fn run(&mut self, _: &[u8], _: &mut [u8]) -> Result<Report, Refusal> {
        let valid = match self.by_rules {
            true => self.host.check().iter().all(|finding| finding.holds()),
            false => self.host.valid(),
        };
        assert!(valid, "the host that is timed is not valid");
        Ok(Report { taken: 0, accepted: 0, refused: 0, left_over: 0 })
    }

    fn bytes(&self) -> [u8; SIZE] {
        *self.host.bytes()
    }
}

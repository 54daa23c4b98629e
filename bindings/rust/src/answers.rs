//! What a host answers: done with a value, or refused for a reason that has a number; and the report of a journal.

use std::fmt;

/// The bytes of an answer.
pub const ANSWER: usize = 8;
/// The bytes of a report.
pub(crate) const REPORT: usize = 20;

/// The answer to one record.
#[derive(Clone, Copy, Debug, PartialEq, Eq, Hash)]
pub enum Answer {
    /// The record was done: what a read found, 0 for every other action.
    Done(u32),
    /// The record was refused, and the state is as it was.
    Refused(Refusal),
}

impl Answer {
    /// The answer that stands in the bytes of an answer buffer.
    pub fn from_bytes(bytes: [u8; ANSWER]) -> Answer {
        // the number is a byte with three zeros after it, so it is read as 32 bits: a byte that is no zero shows
        match Refusal::from_number(word(&bytes, 0)) {
            None => Answer::Done(word(&bytes, 4)),
            Some(refusal) => Answer::Refused(refusal),
        }
    }

    /// 0 if it was done, else the refusal's number.
    pub fn number(self) -> u32 {
        match self {
            Answer::Done(_) => 0,
            Answer::Refused(refusal) => refusal.number(),
        }
    }

    /// What a read found; 0 for every other action and for a refusal.
    pub fn value(self) -> u32 {
        match self {
            Answer::Done(value) => value,
            Answer::Refused(_) => 0,
        }
    }
}

/// Why a record, a journal, a piece of one or an image was refused. Checks run in this order, and the first that applies is the answer; but
/// [`Host::load`](crate::Host::load) checks 16 before 1.
#[derive(Clone, Copy, Debug, PartialEq, Eq, Hash)]
pub enum Refusal {
    /// 1: the state is not valid.
    State,
    /// 2: the bytes are no record, or an argument is out of range.
    Record,
    /// 3: a guest's action while the host has control, or the host's while a guest runs.
    Mode,
    /// 4: the guest did not ask for exactly this; or it is to run, or to become active, and its call still waits; or its call is to be
    /// dropped, and it has none.
    Call,
    /// 5: the virtual address is reserved, or is the stealth address and needs `new_sm`.
    Reserved,
    /// 6: the current table maps nothing at the virtual address, which is to be read, written or unmapped.
    Unmapped,
    /// 7: the guest has no page at the physical address.
    Unregistered,
    /// 8: the page is no data page to be mapped, or no table to become the current one.
    PageKind,
    /// 9: the page would be mapped at the stealth address and elsewhere, or was shared and is to become a stealth page.
    StealthShared,
    /// 10: the stealth address is mapped already, or the guest has a page at the physical address.
    PlaceTaken,
    /// 11: no page is free.
    NoFreePage,
    /// 12: the page is the current table, a table with entries, or mapped by some table.
    InUse,
    /// 13: a journal's header is missing or different; of a piece, what is kept may also be damaged.
    Header,
    /// 14: a journal has more than 4,096 whole records; never of a piece.
    TooManyRecords,
    /// 15: the answer buffer has less than 8 bytes for each whole record, of a piece for each record to be run.
    AnswerBuffer,
    /// 16: the bytes are no image: their mark, version or length is different.
    Image,
    /// A number that has no name here. The library that this package was written for gives none; a later one, or bytes from
    /// elsewhere, may. It is kept as it is, since to panic would end a caller that only looks at bytes, and to answer one of the
    /// reasons above would be a lie.
    Other(Unknown),
}

/// A number of a refusal that has no name here. Only [`Refusal::from_number`] makes one, so no number has two refusals.
#[derive(Clone, Copy, Debug, PartialEq, Eq, Hash)]
pub struct Unknown(u32);

impl Refusal {
    /// Every refusal that has a name, in the order of the numbers.
    pub const ALL: [Refusal; 16] = [
        Refusal::State,
        Refusal::Record,
        Refusal::Mode,
        Refusal::Call,
        Refusal::Reserved,
        Refusal::Unmapped,
        Refusal::Unregistered,
        Refusal::PageKind,
        Refusal::StealthShared,
        Refusal::PlaceTaken,
        Refusal::NoFreePage,
        Refusal::InUse,
        Refusal::Header,
        Refusal::TooManyRecords,
        Refusal::AnswerBuffer,
        Refusal::Image,
    ];

    /// The refusal of a number; `None` for 0, which is no refusal.
    pub fn from_number(number: u32) -> Option<Refusal> {
        let known = Refusal::ALL.into_iter().find(|refusal| refusal.number() == number);
        (number != 0).then(|| known.unwrap_or(Refusal::Other(Unknown(number))))
    }

    /// Its number, as the rules have it.
    pub fn number(self) -> u32 {
        match self {
            Refusal::State => 1,
            Refusal::Record => 2,
            Refusal::Mode => 3,
            Refusal::Call => 4,
            Refusal::Reserved => 5,
            Refusal::Unmapped => 6,
            Refusal::Unregistered => 7,
            Refusal::PageKind => 8,
            Refusal::StealthShared => 9,
            Refusal::PlaceTaken => 10,
            Refusal::NoFreePage => 11,
            Refusal::InUse => 12,
            Refusal::Header => 13,
            Refusal::TooManyRecords => 14,
            Refusal::AnswerBuffer => 15,
            Refusal::Image => 16,
            Refusal::Other(Unknown(number)) => number,
        }
    }

    fn words(self) -> &'static str {
        match self {
            Refusal::State => "the host's state is damaged",
            Refusal::Record => "there is no such record, or one of its numbers is out of range",
            Refusal::Mode => "a guest may not do this while the host has control, nor the host while a guest runs",
            Refusal::Call => "the guest did not ask for exactly this, or still waits for what it asked for, or has no call to be dropped",
            Refusal::Reserved => "this address is reserved, or it is the stealth address, which new does not map",
            Refusal::Unmapped => "nothing is mapped at this address",
            Refusal::Unregistered => "the guest has no page at this physical address",
            Refusal::PageKind => "the page is of the wrong kind: only data is mapped, and only a table can be the current table",
            Refusal::StealthShared => "a stealth page has no other address, and a page that was shared cannot become one",
            Refusal::PlaceTaken => "there is a page at this address already",
            Refusal::NoFreePage => "no page is free",
            Refusal::InUse => "the page is in use: it is mapped, or it is a table with entries or the current one",
            Refusal::Header => "this is no journal: its first eight bytes are missing or different",
            Refusal::TooManyRecords => "the journal has more than 4096 records",
            Refusal::AnswerBuffer => "the room for answers is too small: each record needs eight bytes",
            Refusal::Image => "this is no image of a host: its mark, its version or its length is different",
            Refusal::Other(_) => "this package has no words for this number",
        }
    }
}

/// Of a journal that was run.
#[derive(Clone, Copy, Debug, PartialEq, Eq, Hash)]
pub struct Report {
    /// Records judged.
    pub taken: u32,
    /// Those that were done.
    pub accepted: u32,
    /// Those that were refused.
    pub refused: u32,
    /// Bytes after the last whole record, 0 to 7, which are not run.
    pub left_over: u32,
}

impl Report {
    pub(crate) fn from_bytes(bytes: [u8; REPORT]) -> Result<Report, Refusal> {
        match Refusal::from_number(word(&bytes, 0)) {
            Some(refusal) => Err(refusal),
            None => Ok(Report {
                taken: word(&bytes, 4),
                accepted: word(&bytes, 8),
                refused: word(&bytes, 12),
                left_over: word(&bytes, 16),
            }),
        }
    }
}

/// 32 bits, low byte first.
fn word(bytes: &[u8], at: usize) -> u32 {
    u32::from_le_bytes([bytes[at], bytes[at + 1], bytes[at + 2], bytes[at + 3]])
}

/// `done 300`, or the refusal's words.
impl fmt::Display for Answer {
    fn fmt(&self, f: &mut fmt::Formatter) -> fmt::Result {
        match self {
            Answer::Done(value) => write!(f, "done {value}"),
            Answer::Refused(refusal) => refusal.fmt(f),
        }
    }
}

/// `refused 6: nothing is mapped at this address`.
impl fmt::Display for Refusal {
    fn fmt(&self, f: &mut fmt::Formatter) -> fmt::Result {
        write!(f, "refused {}: {}", self.number(), self.words())
    }
}

impl std::error::Error for Refusal {}

/// `taken 9, accepted 8, refused 1, left over 0`.
impl fmt::Display for Report {
    fn fmt(&self, f: &mut fmt::Formatter) -> fmt::Result {
        let Report { taken, accepted, refused, left_over } = self;
        write!(f, "taken {taken}, accepted {accepted}, refused {refused}, left over {left_over}")
    }
}

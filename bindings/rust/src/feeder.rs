//! A journal that is run as it is read.

use std::fmt;
use std::io::{self, Read};
use std::iter::FusedIterator;
use std::num::NonZeroUsize;
use std::ops::Range;

use crate::{Answer, Host, Kept, Refusal, ANSWER, RECORD};

/// The most bytes that are read at once.
const PIECE: usize = 4096;
/// The most records that a piece makes whole, with the bytes of a begun one before it.
const RECORDS: usize = PIECE.div_ceil(RECORD);

/// Runs a journal as it is read, with no limit on its length, and hands out each record's answer. Its buffers are of fixed size.
///
/// It waits for more input only where every answer so far was handed out. What was read is run at once, so that the host may be ahead
/// of the answers ([`Feeder::with_allowance`] says by how much). A refused record does not stop it. Once it ended,
/// [`Feeder::left_over`] bytes were left over.
///
/// After [`FeedError::Read`] nothing is lost, and the next call reads on: so an input may also time out and be asked again.
/// After [`FeedError::Refused`] it has ended.
///
/// ```
/// use ration::{journal, Action, Answer, FeedError, Feeder, Host, Va};
///
/// let mut host = Host::fresh();
/// let bytes = journal(&[Action::Silent, Action::Read(Va(0)), Action::RetCtrl]);
/// // any `std::io::Read`: a file, a socket, standard input
/// let mut feeder = Feeder::new(&mut host, &bytes[..30]);
/// for answer in &mut feeder {
///     match answer? {
///         Answer::Done(value) => println!("done {value}"),
///         Answer::Refused(refusal) => println!("{refusal}"),
///     }
/// }
/// assert_eq!(feeder.left_over(), 6);
/// # Ok::<(), FeedError>(())
/// ```
pub struct Feeder<'h, R> {
    host: &'h mut Host,
    input: R,
    kept: Kept,
    piece: Box<[u8; PIECE]>,
    /// of the piece, what is to be offered
    offered: Range<usize>,
    answers: Box<[u8; ANSWER * RECORDS]>,
    /// of the answers, which are to be handed out
    given: Range<usize>,
    allowance: usize,
    /// nothing more is read
    ended: bool,
}

impl<'h, R: Read> Feeder<'h, R> {
    /// Over a journal that is read from its first byte, on the host as it is.
    pub fn new(host: &'h mut Host, input: R) -> Feeder<'h, R> {
        Feeder {
            host,
            input,
            kept: Kept::begin(),
            piece: Box::new([0; PIECE]),
            offered: 0..0,
            answers: Box::new([0; ANSWER * RECORDS]),
            given: 0..0,
            allowance: RECORDS,
            ended: false,
        }
    }

    /// At most so many records are run before their answers are handed out, else all that were read. With 1 each record is run only
    /// when its answer is asked for, so that who stops asking stops the host there.
    pub fn with_allowance(self, records: NonZeroUsize) -> Feeder<'h, R> {
        Feeder { allowance: records.get(), ..self }
    }

    /// Reads until the header is whole, and runs nothing. It need not be called: the first answer asks for the header too.
    pub fn read_header(&mut self) -> Result<(), FeedError> {
        while !self.kept.header_is_whole() {
            self.feed(0)?;
        }
        Ok(())
    }

    /// How many bytes of a begun record are kept: once the input ended, the bytes left over, 0 to 7, which are not run.
    pub fn left_over(&self) -> usize {
        self.kept.begun().len()
    }

    /// Offers what was read; reads first where all of it was taken.
    fn feed(&mut self, allowance: usize) -> Result<(), FeedError> {
        if self.offered.is_empty() && !self.ended {
            self.read()?;
        }
        let piece = &self.piece[self.offered.clone()];
        let fed =
            self.host.feed(&mut self.kept, piece, allowance, self.ended, &mut self.answers[..]);
        match fed {
            Ok(fed) => {
                self.offered.start += fed.bytes;
                self.given = 0..fed.records;
                Ok(())
            }
            Err(refusal) => {
                self.offered = 0..0;
                self.ended = true;
                Err(FeedError::Refused(refusal))
            }
        }
    }

    fn read(&mut self) -> Result<(), FeedError> {
        loop {
            match self.input.read(&mut self.piece[..]) {
                Ok(length) => {
                    self.offered = 0..length;
                    self.ended = length == 0;
                    return Ok(());
                }
                Err(error) if error.kind() == io::ErrorKind::Interrupted => {}
                Err(error) => return Err(FeedError::Read(error)),
            }
        }
    }

    fn answer(&self, n: usize) -> Answer {
        let mut bytes = [0; ANSWER];
        bytes.copy_from_slice(&self.answers[ANSWER * n..ANSWER * (n + 1)]);
        Answer::from_bytes(bytes)
    }
}

impl<R: Read> Iterator for Feeder<'_, R> {
    type Item = Result<Answer, FeedError>;

    fn next(&mut self) -> Option<Result<Answer, FeedError>> {
        loop {
            if let Some(n) = self.given.next() {
                return Some(Ok(self.answer(n)));
            }
            // the end was offered with the last read
            if self.ended && self.offered.is_empty() {
                return None;
            }
            if let Err(error) = self.feed(self.allowance) {
                return Some(Err(error));
            }
        }
    }
}

impl<R: Read> FusedIterator for Feeder<'_, R> {}

/// Why a [`Feeder`] could not go on.
#[derive(Debug)]
pub enum FeedError {
    /// The input could not be read. A read that was [interrupted](io::ErrorKind::Interrupted) is tried again and not told.
    Read(io::Error),
    /// The input is no journal ([`Refusal::Header`]), or the host's state is not valid ([`Refusal::State`]).
    Refused(Refusal),
}

/// The refusal's words, or `the journal cannot be read: ..`.
impl fmt::Display for FeedError {
    fn fmt(&self, f: &mut fmt::Formatter) -> fmt::Result {
        match self {
            FeedError::Read(error) => write!(f, "the journal cannot be read: {error}"),
            FeedError::Refused(refusal) => refusal.fmt(f),
        }
    }
}

impl std::error::Error for FeedError {
    fn source(&self) -> Option<&(dyn std::error::Error + 'static)> {
        match self {
            FeedError::Read(error) => Some(error),
            FeedError::Refused(refusal) => Some(refusal),
        }
    }
}

//! A call of feed: its bytes for `probe`, and what comes of it.

use second::{feed, Kept, State, KEPT, STATE_BYTES};

/// The allowance that stands for as many records as there can be.
pub const ALL: u16 = u16::MAX;

/// Number, records run, bytes taken and what is kept, before the buffer.
pub const FED: usize = 1 + 2 + 2 + KEPT;

#[derive(Clone)]
pub struct Feed {
    pub machine: Vec<u8>,
    pub kept: Kept,
    pub piece: Vec<u8>,
    pub allowance: u16,
    pub last: bool,
    pub buffer: Vec<u8>,
}

/// What a call gives back.
pub struct Given<'a> {
    pub number: u8,
    pub records: usize,
    pub bytes: usize,
    pub kept: Kept,
    pub buffer: &'a [u8],
    pub machine: &'a [u8],
}

impl<'a> Given<'a> {
    pub fn of(result: &'a [u8]) -> Given<'a> {
        let (head, rest) = result.split_at(FED);
        let (buffer, machine) = rest.split_at(rest.len() - STATE_BYTES);
        let count = |at: usize| u16::from_le_bytes([head[at], head[at + 1]]) as usize;
        let kept = std::array::from_fn(|i| head[FED - KEPT + i]);
        Given { number: head[0], records: count(1), bytes: count(3), kept, buffer, machine }
    }

    /// The answers of the records that were run.
    pub fn answers(&self) -> impl Iterator<Item = &'a [u8]> {
        self.buffer.chunks_exact(8).take(self.records)
    }
}

impl Feed {
    /// What follows the head of a task.
    pub fn body(&self) -> Vec<u8> {
        let allowance = self.allowance.to_le_bytes();
        [&allowance[..], &self.machine, &self.kept, &self.piece, &self.buffer].concat()
    }

    pub fn result_size(&self) -> usize {
        FED + self.buffer.len() + STATE_BYTES
    }

    pub fn allowed(&self) -> usize {
        match self.allowance {
            ALL => usize::MAX,
            records => records as usize,
        }
    }

    /// What the second program gives back.
    pub fn expected(&self) -> Vec<u8> {
        let mut state = State::from_bytes(&self.machine);
        let (mut kept, mut buffer) = (self.kept, self.buffer.clone());
        let allowance = self.allowed();
        let fed = feed(&mut state, &mut kept, &self.piece, allowance, self.last, &mut buffer);
        let mut out = vec![fed.number];
        for count in [fed.records, fed.bytes] {
            out.extend(u16::try_from(count).expect("at most 65,535 bytes").to_le_bytes());
        }
        out.extend(kept);
        [out, buffer, state.to_bytes()].concat()
    }
}

//! A journal in pieces: what is kept from one to the next, and what a call made of one.

use crate::archive::{compare_sizes, ration_begin};
use crate::{HEADER, RECORD};

/// The bytes of what is kept from one piece of a journal to the next.
pub const KEPT_SIZE: usize = 9;

// where each count stands, and where the bytes of a begun record start
const HEADER_COUNT: usize = 0;
const BEGUN_COUNT: usize = 1;
const BEGUN: usize = 2;

/// What [`Host::feed`](crate::Host::feed) keeps of a journal from one piece to the next: how much of the header was taken, and the
/// bytes of a begun record.
#[derive(Clone, Debug, PartialEq, Eq, Hash)]
pub struct Kept([u8; KEPT_SIZE]);

impl Default for Kept {
    /// The same as [`Kept::begin`].
    fn default() -> Kept {
        Kept::begin()
    }
}

impl Kept {
    /// Before a journal's first piece.
    ///
    /// # Panics
    ///
    /// If `libration.a` was built with other sizes than this package.
    pub fn begin() -> Kept {
        compare_sizes();
        let mut kept = [0; KEPT_SIZE];
        // the pointer comes from a reference to as many bytes as the archive writes
        unsafe { ration_begin(&mut kept) };
        Kept(kept)
    }

    /// What was kept as these bytes (`docs/HOST.md`, "Journals in pieces", has their layout). Any bytes may be; with counts out of
    /// range the next piece is refused with [`Refusal::Header`](crate::Refusal::Header).
    pub fn from_bytes(bytes: [u8; KEPT_SIZE]) -> Kept {
        Kept(bytes)
    }

    /// Its bytes, for [`Kept::from_bytes`].
    pub fn bytes(&self) -> &[u8; KEPT_SIZE] {
        &self.0
    }

    pub(crate) fn bytes_mut(&mut self) -> &mut [u8; KEPT_SIZE] {
        &mut self.0
    }

    /// Whether all of the header was taken.
    pub fn header_is_whole(&self) -> bool {
        usize::from(self.0[HEADER_COUNT]) == HEADER
    }

    /// The bytes of a begun record, 0 to 7. At the end of the input these are the bytes left over, which are not run.
    pub fn begun(&self) -> &[u8] {
        let count = usize::from(self.0[BEGUN_COUNT]).min(RECORD - 1);
        &self.0[BEGUN..BEGUN + count]
    }
}

/// Of a piece that was not refused.
#[derive(Clone, Copy, Debug, PartialEq, Eq, Hash)]
pub struct Fed {
    /// Records run.
    pub records: usize,
    /// Bytes of the piece that were taken. The others are to be offered again.
    pub bytes: usize,
}

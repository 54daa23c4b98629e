//! How the lowest free page is found: all in which the two engines differ.

use super::sizes::PAGES;

pub trait Search {
    /// The lowest page that the map marks, bit n for page n.
    fn lowest(free: u64) -> Option<usize>;
}

/// Page after page from 0 on, as the rules say it.
pub struct BitByBit;

impl Search for BitByBit {
    #[inline(always)]
    fn lowest(free: u64) -> Option<usize> {
        (0..PAGES).find(|page| free >> page & 1 == 1)
    }
}

/// At once.
pub struct TrailingZeros;

impl Search for TrailingZeros {
    #[inline(always)]
    fn lowest(free: u64) -> Option<usize> {
        (free != 0).then(|| free.trailing_zeros() as usize)
    }
}

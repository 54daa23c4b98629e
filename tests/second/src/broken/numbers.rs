//! Rule 10, parts 0 to 19: each number of each field below its bound, whatever the others are.

use crate::broken::{Broken, Where};
use crate::bytes::OFFSETS;
use crate::state::State;

/// What each byte of a field is below; None for numbers that are as large as they can be in their bytes.
const BOUNDS: [Option<u8>; 20] = [
    Some(6),
    Some(3),
    Some(2),
    Some(65),
    Some(65),
    None,
    Some(16),
    Some(6),
    Some(64),
    Some(16),
    Some(4),
    Some(2),
    Some(64),
    Some(65),
    Some(2),
    Some(64),
    Some(65),
    None,
    None,
    Some(2),
];

pub fn past_their_bounds(s: &State) -> Option<Broken> {
    let bytes = s.to_bytes();
    BOUNDS.iter().enumerate().find_map(|(field, bound)| {
        let bound = (*bound)?;
        let numbers = &bytes[OFFSETS[field]..OFFSETS[field + 1]];
        let at = numbers.iter().position(|number| *number >= bound)?;
        Some(Broken { part: field as u8, place: Where::Number(field, at) })
    })
}

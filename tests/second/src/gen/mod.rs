//! Journals for tests, each fixed by its seed.

pub mod calls;
pub mod deep;
pub mod driver;
pub mod near;
pub mod noise;

use crate::journal::HEADER;

pub const PROFILES: [&str; 3] = ["deep", "near", "noise"];

/// Header and `count` records; noise may leave up to 7 bytes more. None for an
/// unknown profile.
pub fn journal(seed: u64, count: usize, profile: &str) -> Option<Vec<u8>> {
    let body = match profile {
        "deep" => deep::records(seed, count).concat(),
        "near" => near::records(seed, count).concat(),
        "noise" => noise::bytes(seed, count),
        _ => return None,
    };
    Some([&HEADER[..], &body].concat())
}

//! The journals of the run, each fixed by its profile and seed.

use second::rng::Rng;
use second::{gen, HEADER};

use crate::{blind, crowd, declined};

pub struct Journal {
    pub profile: &'static str,
    pub seed: u64,
    pub bytes: Vec<u8>,
}

/// Profiles and how many journals each has.
pub const PROFILES: [(&str, u64); 10] = [
    ("deep", 90),
    ("near", 200),
    ("noise", 60),
    ("crowd", 90),
    ("blind", 120),
    ("fill", 20),
    ("lengths", LENGTHS),
    ("headers", 64),
    ("garbage", 100),
    ("declined", 40),
];

/// Bytes of the longest journal that passes.
const LONGEST: usize = 32_783;

/// From none to a few records, then around the limit, then far past it.
const LENGTHS: u64 = 41 + 24 + 3;

pub fn all() -> Vec<Journal> {
    let seeds = |(profile, count): (&'static str, u64)| (0..count).map(move |s| (profile, s));
    let pairs = PROFILES.into_iter().flat_map(seeds);
    pairs.map(|(profile, seed)| Journal { profile, seed, bytes: journal(profile, seed) }).collect()
}

pub fn journal(profile: &str, seed: u64) -> Vec<u8> {
    let turn = |counts: &[usize]| counts[seed as usize % counts.len()];
    match profile {
        "deep" => with_header(&gen::deep::records(seed, turn(&[4096, 2500, 1000, 300])).concat()),
        "near" => with_header(&gen::near::records(seed, turn(&[600, 900, 2400, 60])).concat()),
        "noise" => with_header(&gen::noise::bytes(seed, turn(&[1200, 400, 40]))),
        "crowd" => with_header(&crowd::records(seed, turn(&[2000, 1200, 300, 4096, 800])).concat()),
        "blind" => with_header(&blind::scripts(seed, turn(&[300, 1000, 500])).concat()),
        "fill" => with_header(&blind::fill(seed).concat()),
        "lengths" => of_length(seed),
        "headers" => wrong_header(seed),
        "garbage" => garbage(seed),
        "declined" => with_header(&declined::scripts(seed, turn(&[300, 1000, 120])).concat()),
        _ => Vec::new(),
    }
}

fn with_header(body: &[u8]) -> Vec<u8> {
    [&HEADER, body].concat()
}

/// So many bytes of an accepted run.
fn run_of_bytes(seed: u64, length: usize) -> Vec<u8> {
    let mut bytes = with_header(&gen::deep::records(seed, length / 8).concat());
    bytes.truncate(length);
    bytes
}

fn of_length(seed: u64) -> Vec<u8> {
    let length = match seed as usize {
        length @ 0..=40 => length,
        near @ 41..=64 => LONGEST - 15 + near - 41,
        65 => 40_000,
        66 => 65_528,
        _ => 65_535,
    };
    run_of_bytes(seed, length)
}

/// Journals longer than `probe` takes.
pub fn longer() -> Vec<Journal> {
    let of =
        |(seed, length)| Journal { profile: "longer", seed, bytes: run_of_bytes(seed, length) };
    [(0, 65_536), (1, 65_543), (2, 100_000), (3, 1_000_000)].map(of).into()
}

/// One byte of the header is another; after it nothing, some records or too many.
fn wrong_header(seed: u64) -> Vec<u8> {
    let length = [8, 48, 53, 40_000][seed as usize / 8 % 4];
    let mut bytes = run_of_bytes(seed, length);
    let byte = &mut bytes[seed as usize % 8];
    let before = *byte;
    *byte = match seed / 8 {
        0 => before ^ 1,
        1 => before ^ 2,
        2 => before ^ 0x20,
        3 => before ^ 0x80,
        4 => before.wrapping_add(1),
        5 => before.wrapping_sub(1),
        6 => 255,
        _ => before ^ 0x31,
    };
    bytes
}

/// Bytes drawn at random, half of the time after a header.
fn garbage(seed: u64) -> Vec<u8> {
    let mut rng = Rng::new(seed ^ 0x0067_6172_6261_6765);
    let most = if seed % 10 < 1 { 50_000 } else { 300 };
    let length = rng.below(most);
    let body: Vec<u8> = (0..length).map(|_| rng.byte()).collect();
    match seed % 2 {
        0 => with_header(&body),
        _ => body,
    }
}

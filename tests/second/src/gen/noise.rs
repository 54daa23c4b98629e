//! Random bytes, some of them nearly records, and a few bytes left over. Odd seeds
//! have an accepted run before them.

use crate::gen::deep;
use crate::rng::Rng;

pub fn bytes(seed: u64, count: usize) -> Vec<u8> {
    let mut rng = Rng::new(seed ^ 0x006E_6F69_7365);
    let prelude = if seed % 2 == 1 { count / 4 } else { 0 };
    let mut out = deep::records(seed, prelude).concat();
    out.extend((prelude..count).flat_map(|_| noisy_record(&mut rng)));
    let left_over = rng.below(8);
    out.extend((0..left_over).map(|_| rng.byte()));
    out
}

fn noisy_record(rng: &mut Rng) -> [u8; 8] {
    match rng.below(8) {
        0 => rng.draw().to_le_bytes(),
        1 => [rng.below(17) as u8, rng.byte(), rng.byte(), rng.byte(), 0, 0, 0, rng.byte()],
        2 | 3 => small_fields(rng),
        _ => tidy(rng),
    }
}

/// Every field small, so that some fit by luck.
fn small_fields(rng: &mut Rng) -> [u8; 8] {
    let call = rng.below(7) as u8;
    [rng.below(17) as u8, rng.below(10) as u8, rng.below(3) as u8, call, 0, 0, 0, 0]
}

/// Unused fields zero, the used ones drawn from few numbers so that calls and
/// actions meet.
fn tidy(rng: &mut Rng) -> [u8; 8] {
    let kind = rng.below(16) as u8;
    let a = rng.pick(&[0, 1, 1, 2, 7, 8, 15, 47, 64]).unwrap_or(0);
    let b = rng.below(2) as u8;
    let value = rng.byte();
    match kind {
        0 | 11 | 12 => [kind, 0, 0, 0, 0, 0, 0, 0],
        3 | 4 => [kind, a, 0, 0, value, 0, 0, value],
        8 | 15 => [kind, rng.below(5) as u8, 0, 0, 0, 0, 0, 0],
        5 | 13 => [kind, a, b, 0, 0, 0, 0, 0],
        6 => [kind, 7, b, 0, 0, 0, 0, 0],
        10 => tidy_hcall(rng, a, b),
        _ => [kind, a, 0, 0, 0, 0, 0, 0],
    }
}

fn tidy_hcall(rng: &mut Rng, a: u8, b: u8) -> [u8; 8] {
    match rng.below(6) as u8 {
        0 => [10, 0, 0, 0, 0, 0, 0, 0],
        call @ (1 | 4) => [10, a, b, call, 0, 0, 0, 0],
        call => [10, a, 0, call, 0, 0, 0, 0],
    }
}

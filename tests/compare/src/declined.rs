//! Calls that are declined, written with no machine beside them.

use second::gen::calls;
use second::rng::Rng;
use second::GuestId;

use crate::blind::{action, come, new, pin, read, record, write, Records, CHMOD, RET_CTRL};

const GUESTS: u8 = GuestId::COUNT as u8;

/// Calls that are refused whenever they are asked for here: call, a and b.
const HOPELESS: [(u8, u8, u8); 12] = [
    (1, 9, 0),
    (1, 3, 15),
    (1, 7, 2),
    (2, 63, 0),
    (2, 0, 0),
    (2, 9, 0),
    (2, 46, 0),
    (3, 1, 0),
    (3, 14, 0),
    (4, 2, 1),
    (5, 0, 0),
    (5, 13, 0),
];

/// Each guest has a page at 8 and a stealth page; then calls are made and declined.
pub fn scripts(seed: u64, count: usize) -> Records {
    let mut rng = Rng::new(seed ^ 0x6465_636C_696E_6564);
    let mut out = Vec::new();
    for guest in 0..GUESTS {
        come(&mut out, guest);
        for (va, pa) in [(8, 1), (7, 2)] {
            pin(&mut out, pa, false);
            new(&mut out, va, pa);
            write(&mut out, va, rng.draw() as u32);
        }
    }
    while out.len() < count {
        let guest = rng.below(GUESTS as usize) as u8;
        match rng.below(8) {
            0 | 1 => refused(&mut out, &mut rng, guest),
            2 | 3 => left_behind(&mut out, &mut rng, guest),
            4 => at_once(&mut out, &mut rng, guest),
            5 => all_waiting(&mut out, &mut rng),
            6 => running(&mut out, &mut rng, guest),
            _ => no_such_guest(&mut out, &mut rng, guest),
        }
        read(&mut out, if rng.percent(50) { 7 } else { 8 });
        write(&mut out, if rng.percent(50) { 7 } else { 8 }, rng.draw() as u32);
    }
    out.truncate(count);
    out
}

fn drop(guest: u8) -> [u8; 8] {
    record(15, guest, 0, 0)
}

fn switch(guest: u8) -> [u8; 8] {
    record(8, guest, 0, 0)
}

fn other_than(rng: &mut Rng, guest: u8) -> u8 {
    (guest + 1 + rng.below(GUESTS as usize - 1) as u8) % GUESTS
}

/// A call whose action is refused; once it is dropped the guest runs, and neither goes again.
fn refused(out: &mut Records, rng: &mut Rng, guest: u8) {
    let (call, a, b) = rng.pick(&HOPELESS).unwrap_or(HOPELESS[0]);
    come(out, guest);
    out.extend([record(10, a, b, call), action(call, a, b), CHMOD, drop(guest)]);
    out.extend([action(call, a, b), drop(guest), CHMOD]);
}

/// Another guest goes on; the call is dropped while that one is active.
fn left_behind(out: &mut Records, rng: &mut Rng, guest: u8) {
    let (call, a, b) = calls::any(rng);
    let other = other_than(rng, guest);
    come(out, other);
    come(out, guest);
    out.extend([record(10, a, b, call), switch(other), CHMOD]);
    read(out, 7);
    out.extend([drop(guest), RET_CTRL, switch(guest), drop(guest), drop(guest)]);
    match rng.below(3) {
        0 => out.push(CHMOD),
        1 => out.extend([switch(guest), CHMOD]),
        _ => out.extend([action(call, a, b), switch(guest), action(call, a, b), CHMOD]),
    }
}

/// The active guest's call, dropped unseen; the guest asks again.
fn at_once(out: &mut Records, rng: &mut Rng, guest: u8) {
    come(out, guest);
    for _ in 0..1 + rng.below(3) {
        let (call, a, b) = calls::any(rng);
        out.extend([record(10, a, b, call), [4, 7, 0, 0, a, b, 0, 1], drop(guest), CHMOD]);
    }
}

/// Every guest has a call; some are dropped, whoever is active, and one guest comes back.
fn all_waiting(out: &mut Records, rng: &mut Rng) {
    let first = rng.below(GUESTS as usize) as u8;
    for guest in (0..GUESTS).map(|i| (first + i) % GUESTS) {
        let (call, a, b) = calls::any(rng);
        come(out, guest);
        out.push(record(10, a, b, call));
    }
    for _ in 0..rng.below(5) {
        out.push(drop(rng.below(GUESTS as usize) as u8));
    }
    out.extend([CHMOD, record(2, 8, 0, 0)]);
    come(out, rng.below(GUESTS as usize) as u8);
}

/// Drops while the guest runs, of itself and of one that may have a call.
fn running(out: &mut Records, rng: &mut Rng, guest: u8) {
    let (call, a, b) = calls::any(rng);
    let other = other_than(rng, guest);
    come(out, other);
    out.push(record(10, a, b, call));
    out.extend([drop(guest), switch(guest), CHMOD, drop(guest), drop(other)]);
    if rng.percent(50) {
        out.extend([RET_CTRL, drop(guest), CHMOD]);
    }
}

/// Out of range, in both modes; and bytes that drop does not use.
fn no_such_guest(out: &mut Records, rng: &mut Rng, guest: u8) {
    let wrong = rng.pick(&[4, 5, 8, 15, 16, 128, 255]).unwrap_or(4);
    let mut unused = drop(guest);
    unused[2 + rng.below(6)] = 1 + rng.below(255) as u8;
    come(out, guest);
    out.extend([
        drop(wrong),
        unused,
        RET_CTRL,
        drop(wrong),
        unused,
        record(16, guest, 0, 0),
        CHMOD,
    ]);
}

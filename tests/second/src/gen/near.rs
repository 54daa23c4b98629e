//! Near misses: accepted runs with records between them that just get refused.
//!
//! Most come from an accepted record with one field changed. Refusals 7 to 12 (and
//! 5 of new, 5 and 6 of del) need a call that can never be served, after which the
//! guest is stuck until it is dropped. A journal has four of those, of which some are
//! dropped at once, and seeds take turns; at its end guests come back and there are more.

use crate::gen::deep::{access, one, pin, run_phase, stealth, Phase};
use crate::gen::driver::Driver;
use crate::numbers::{GuestId, Virt};
use crate::record::{encode, Action, Call};

const TURNS: [u8; 7] = [7, 8, 9, 10, 12, 5, 6];

/// Room that filling all pages needs, near misses included.
const ROOM_TO_FILL: usize = 420;

pub fn records(seed: u64, count: usize) -> Vec<[u8; 8]> {
    let mut driver = Driver::new(seed, count);
    let mut wanted = wanted_numbers(&mut driver);
    if wanted[0] == 11 {
        driver.misses = 25;
        run_phase(&mut driver, Phase::Fill);
    }
    driver.misses = 70;
    let start = driver.records.len();
    let part = count.saturating_sub(start) / (wanted.len() + 1);
    for (i, number) in wanted.drain(..).enumerate() {
        let end = if number == 11 { start } else { start + (i + 1) * part };
        work_until(&mut driver, end);
        strand(&mut driver, number);
    }
    while driver.goes_on() {
        aftermath(&mut driver);
    }
    driver.records
}

/// Four numbers out of 5 to 12, by turns; 11 first, where there is room for it.
fn wanted_numbers(driver: &mut Driver) -> Vec<u8> {
    let from = driver.rng.below(TURNS.len());
    let mut wanted: Vec<u8> = (0..4).map(|i| TURNS[(from + i) % TURNS.len()]).collect();
    if driver.limit >= ROOM_TO_FILL && driver.rng.percent(40) {
        wanted[0] = 11;
    }
    wanted
}

/// Accepted work with near misses up to so many records.
fn work_until(driver: &mut Driver, end: usize) {
    while driver.goes_on() && driver.records.len() < end {
        let phase = match driver.rng.below(10) {
            0..=5 => Phase::Build,
            6 | 7 => Phase::Work,
            _ => Phase::Drain,
        };
        if driver.rng.percent(3) {
            come_back(driver);
        }
        one(driver, phase);
    }
}

/// Puts the active guest into a call whose action gets the number, then declines it or
/// goes on with another guest.
fn strand(driver: &mut Driver, number: u8) {
    if matches!(number, 9 | 10) {
        pin(driver);
        stealth(driver);
        pin(driver);
    }
    if driver.has_call(driver.guest()) || !driver.run_guest() {
        return;
    }
    let Some(call) = hopeless_call(driver, number) else { return };
    driver.give(encode(Action::Hcall(Some(call))));
    for _ in 0..1 + driver.rng.below(3) {
        driver.give(encode(call.action()));
        misses_of(driver, encode(call.action()));
    }
    access(driver);
    driver.give(encode(Action::Chmod));
    if driver.rng.percent(30) {
        driver.accept(Action::Drop { guest: driver.guest() });
        driver.run_guest();
        return;
    }
    let others = driver.free_guests();
    if let Some(guest) = driver.rng.pick(&others) {
        driver.accept(Action::Switch { guest });
    }
}

/// A call whose action would be answered with the number, or else with any other
/// refusal; each kind of action has the same chance.
fn hopeless_call(driver: &mut Driver, number: u8) -> Option<Call> {
    let answers: Vec<(Call, u8)> =
        every_call().into_iter().map(|call| (call, driver.would_serve(call))).collect();
    let exact = answers.iter().any(|(_, given)| *given == number);
    let wanted = |given: u8| if exact { given == number } else { given != 0 };
    let kind = |call: Call| encode(call.action())[0];
    let fit: Vec<Call> =
        answers.iter().filter(|(_, given)| wanted(*given)).map(|(call, _)| *call).collect();
    let mut kinds: Vec<u8> = fit.iter().map(|call| kind(*call)).collect();
    kinds.sort_unstable();
    kinds.dedup();
    let chosen = driver.rng.pick(&kinds)?;
    let of_kind: Vec<Call> = fit.into_iter().filter(|call| kind(*call) == chosen).collect();
    driver.rng.pick(&of_kind)
}

fn every_call() -> Vec<Call> {
    let arguments = (0..64u8).flat_map(|a| (0..16u8).map(move |b| (a, b)));
    let all = arguments.flat_map(|(a, b)| (1..=5).map(move |number| (number, a, b)));
    all.filter_map(|(number, a, b)| Call::from_numbers(number, a, b)).collect()
}

/// A guest by three records, sent without looking; mostly while the host has control.
fn come_back(driver: &mut Driver) {
    if driver.rng.percent(75) {
        driver.stop_guest();
    }
    let Some(guest) = GuestId::new(driver.rng.below(GuestId::COUNT) as u8) else { return };
    for action in [Action::Drop { guest }, Action::Switch { guest }, Action::Chmod] {
        driver.give(encode(action));
    }
}

/// While every guest is stuck there is little left: hosts' accesses and refusals, until a
/// guest comes back.
fn aftermath(driver: &mut Driver) {
    let stuck = GuestId::all().all(|g| driver.has_call(g) || g == driver.guest());
    if !stuck || !driver.has_call(driver.guest()) {
        if driver.rng.percent(12) {
            let number = TURNS[driver.rng.below(TURNS.len())];
            return strand(driver, number);
        }
        return one(driver, Phase::Build);
    }
    let mapped = driver.mapped();
    let before = driver.records.len();
    if driver.rng.percent(4) {
        come_back(driver);
    } else if let Some(va) = driver.rng.pick(&mapped) {
        let value = driver.rng.draw() as u32;
        driver.accept(Action::Write { hyper: true, va, value });
        driver.accept(Action::Read { hyper: true, va });
    }
    let served = driver.state.guest(driver.guest()).pending;
    if let Some(call) = Call::from_numbers(served.number, served.a, served.b) {
        misses_of(driver, encode(call.action()));
    }
    if driver.records.len() == before {
        driver.give(encode(Action::Silent));
    }
}

/// Refused neighbours of a record; the rarest of several answers each time.
pub fn misses_of(driver: &mut Driver, record: [u8; 8]) {
    for _ in 0..1 + driver.rng.below(3) {
        let mut best: Option<([u8; 8], u8)> = None;
        for _ in 0..12 {
            let other = neighbour(driver, record);
            let number = driver.answer(&other);
            let rarer = |(_, old): ([u8; 8], u8)| {
                driver.given[number as usize] < driver.given[old as usize]
            };
            if number != 0 && best.is_none_or(rarer) {
                best = Some((other, number));
            }
        }
        if let Some((other, _)) = best {
            driver.give(other);
        }
    }
}

/// A record one field away.
fn neighbour(driver: &mut Driver, record: [u8; 8]) -> [u8; 8] {
    let mut other = record;
    let rng = &mut driver.rng;
    match rng.below(10) {
        0 => other[0] = rng.below(17) as u8,
        1 => other[0] = nudged(rng.draw(), record[0]),
        2 => other[1] = nudged(rng.draw(), record[1]),
        3 => other[1] = EDGES[rng.below(EDGES.len())],
        4 => other[2] = nudged(rng.draw(), record[2]),
        5 => other[2] = EDGES[rng.below(EDGES.len())],
        6 => other[3] = rng.below(7) as u8,
        7 => other[4 + rng.below(4)] ^= 1 << rng.below(8),
        8 => other = access_beside(driver),
        _ => other = other_use(driver, record),
    }
    other
}

/// Last good and first bad numbers of every range.
const EDGES: [u8; 17] = [0, 1, 2, 3, 4, 6, 7, 8, 14, 15, 16, 23, 46, 47, 48, 63, 64];

fn nudged(draw: u64, number: u8) -> u8 {
    if draw & 1 == 0 {
        number.wrapping_add(1)
    } else {
        number.wrapping_sub(1)
    }
}

/// A read or write in the right mode beside a mapped address.
fn access_beside(driver: &mut Driver) -> [u8; 8] {
    let mapped = driver.mapped();
    let va = driver.rng.pick(&mapped).map_or(0, Virt::byte);
    let kind = 1 + 2 * driver.rng.below(2) as u8 + !driver.is_running() as u8;
    [kind, nudged(driver.rng.draw(), va), 0, 0, 0, 0, 0, 0]
}

/// The arguments under another kind; or chmod, switch, new_sm, drop at a wrong time.
fn other_use(driver: &mut Driver, record: [u8; 8]) -> [u8; 8] {
    const SERVING: [u8; 5] = [5, 7, 9, 13, 14];
    let rng = &mut driver.rng;
    let [kind, a, b] = match rng.below(7) {
        0 => [12, 0, 0],
        1 => [8, rng.below(5) as u8, 0],
        2 => [6, 7, record[2]],
        3 if record[0] == 6 => [5, 7, record[2]],
        6 => [15, rng.below(5) as u8, 0],
        _ => [SERVING[rng.below(SERVING.len())], record[1], record[2]],
    };
    [kind, a, b, 0, 0, 0, 0, 0]
}

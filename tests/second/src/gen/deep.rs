//! Long accepted runs: tables, stealth pages, sharing, evictions, pages used up
//! and given back, over all guests.

use crate::gen::calls;
use crate::gen::driver::Driver;
use crate::numbers::{Mach, Phys, Place, Virt, STEALTH};
use crate::record::{Action, Call};
use crate::state::Kind;

#[derive(Clone, Copy, PartialEq, Eq, Debug)]
pub enum Phase {
    Build,
    Work,
    Fill,
    Drain,
}

type Intent = fn(&mut Driver);

const CYCLE: [Phase; 6] =
    [Phase::Build, Phase::Work, Phase::Fill, Phase::Work, Phase::Drain, Phase::Work];

/// Intents with their weights of a hundred.
fn intents(phase: Phase) -> &'static [(usize, Intent)] {
    match phase {
        Phase::Build => &[
            (41, map),
            (10, pin),
            (10, stealth),
            (7, change_list),
            (5, switch),
            (20, touch),
            (3, del),
            (2, quiet),
            (2, decline),
        ],
        Phase::Work => &[
            (72, touch),
            (5, switch),
            (3, change_list),
            (8, map),
            (4, stealth),
            (4, del),
            (2, quiet),
            (2, decline),
        ],
        Phase::Fill => &[(70, pin), (16, switch), (6, map), (8, touch)],
        Phase::Drain => &[(46, del), (26, unpin), (12, switch), (10, change_list), (6, touch)],
    }
}

/// All accepted.
pub fn records(seed: u64, count: usize) -> Vec<[u8; 8]> {
    let mut driver = Driver::new(seed, count);
    let mut phase = 0;
    while !driver.is_full() {
        run_phase(&mut driver, CYCLE[phase % CYCLE.len()]);
        phase += 1;
    }
    driver.records
}

/// Runs a phase to its end: a number of records, or what it is for.
pub fn run_phase(driver: &mut Driver, phase: Phase) {
    let length = match phase {
        Phase::Fill => 700,
        Phase::Drain => 500,
        _ => 120 + driver.rng.below(300),
    };
    let end = driver.records.len() + length;
    let enough = 24 + driver.rng.below(28) as u32;
    while driver.goes_on() && driver.records.len() < end {
        let free = driver.state.free.count_ones();
        if (phase == Phase::Fill && free == 0) || (phase == Phase::Drain && free >= enough) {
            return;
        }
        one(driver, phase);
    }
}

/// One intent of the phase; now and then, late in the run more often, a guest is left
/// behind.
pub fn one(driver: &mut Driver, phase: Phase) {
    let late = driver.limit - driver.records.len() < driver.limit / 16;
    let share = (phase != Phase::Fill) as usize + late as usize;
    if !driver.free_guests().is_empty() && driver.rng.percent(share) {
        return leave_behind(driver);
    }
    let mut draw = driver.rng.below(100);
    for (weight, intent) in intents(phase) {
        if draw < *weight {
            return intent(driver);
        }
        draw -= weight;
    }
}

/// Call and action, with work of the host around it. Not begun if it would fail.
fn serve(driver: &mut Driver, call: Call) -> bool {
    if driver.would_serve(call) != 0 || !driver.run_guest() {
        return false;
    }
    driver.accept(Action::Hcall(Some(call)));
    if driver.rng.percent(12) {
        access(driver);
    }
    let done = driver.accept(call.action());
    if driver.rng.percent(10) {
        access(driver);
    }
    if driver.rng.percent(70) {
        driver.run_guest();
    }
    done
}

/// Reads and writes; a table with little in it gets more first.
fn touch(driver: &mut Driver) {
    let mapped = driver.mapped().len();
    if mapped == 0 || (mapped < 4 && driver.rng.percent(25)) {
        return map(driver);
    }
    access(driver);
}

/// Reads and writes in the mode that is on, if anything is mapped.
pub fn access(driver: &mut Driver) {
    let mapped = driver.mapped();
    let crowd: Vec<Virt> = mapped.iter().copied().filter(|va| is_crowded(*va)).collect();
    let hyper = !driver.is_running();
    for _ in 0..1 + driver.rng.below(5) {
        let from = if crowd.len() > 1 && driver.rng.percent(60) { &crowd } else { &mapped };
        let Some(mut va) = driver.rng.pick(from) else { return };
        if mapped.contains(&STEALTH) && driver.rng.percent(12) {
            va = STEALTH;
        }
        let value = some_value(driver);
        let action = if driver.rng.percent(55) {
            Action::Write { hyper, va, value }
        } else {
            Action::Read { hyper, va }
        };
        driver.accept(action);
    }
}

fn some_value(driver: &mut Driver) -> u32 {
    match driver.rng.below(8) {
        0 => 0,
        1 => u32::MAX,
        2 => driver.rng.byte() as u32,
        _ => driver.rng.draw() as u32,
    }
}

pub fn pin(driver: &mut Driver) {
    let open = driver.physical(|page| page.is_none());
    let Some(pa) = driver.rng.pick(&open) else { return switch(driver) };
    let kind = if driver.rng.percent(22) { Kind::Table } else { Kind::Data };
    serve(driver, Call::Pin { pa, kind });
}

fn unpin(driver: &mut Driver) {
    let all: Vec<Phys> = Phys::all().collect();
    let served: Vec<Phys> =
        all.into_iter().filter(|pa| driver.would_serve(Call::Unpin { pa: *pa }) == 0).collect();
    match driver.rng.pick(&served) {
        Some(pa) => {
            serve(driver, Call::Unpin { pa });
        }
        None => del(driver),
    }
}

/// Maps a data page: mostly one that the table in force hasn't, and if there is
/// none a new one.
fn map(driver: &mut Driver) {
    let data = data_pages(driver);
    let table = driver.table();
    let held = &driver.state.page(table).entries;
    let is_held = |pa: Phys| at(driver, pa).is_some_and(|page| held.contains(&Place::At(page)));
    let fresh: Vec<Phys> = data.iter().copied().filter(|pa| !is_held(*pa)).collect();
    let from = if driver.rng.percent(85) { &fresh } else { &data };
    let Some(pa) = driver.rng.pick(from) else { return pin(driver) };
    let va = address_for(driver, pa);
    serve(driver, Call::New { va, pa });
}

fn at(driver: &Driver, pa: Phys) -> Option<Mach> {
    driver.state.registered(driver.guest(), pa)
}

fn data_pages(driver: &Driver) -> Vec<Phys> {
    driver.physical(|page| page.is_some_and(|page| driver.state.page(page).is_data()))
}

fn addresses(driver: &Driver, pa: Phys) -> u64 {
    at(driver, pa).map_or(0, |page| driver.state.addresses_of(page))
}

/// The address a page has in some table already, or one in a crowded set, or any.
fn address_for(driver: &mut Driver, pa: Phys) -> Virt {
    let known = addresses(driver, pa);
    let same: Vec<Virt> = Virt::all().filter(|va| known & va.bit() != 0).collect();
    if !same.is_empty() && driver.rng.percent(75) {
        return driver.rng.pick(&same).unwrap_or(STEALTH);
    }
    let crowded = driver.rng.percent(60);
    let open: Vec<Virt> = Virt::all()
        .filter(|va| !va.is_reserved() && *va != STEALTH && (!crowded || is_crowded(*va)))
        .collect();
    driver.rng.pick(&open).unwrap_or(STEALTH)
}

/// Addresses of one set are liked best, so that lines are taken out often.
fn is_crowded(va: Virt) -> bool {
    va.home() == 0
}

pub fn stealth(driver: &mut Driver) {
    let fit: Vec<Phys> = Phys::all()
        .filter(|pa| driver.would_serve(Call::New { va: STEALTH, pa: *pa }) == 0)
        .collect();
    match driver.rng.pick(&fit) {
        Some(pa) => {
            serve(driver, Call::New { va: STEALTH, pa });
        }
        None => touch(driver),
    }
}

/// Where nothing is mapped, another table may map something.
fn del(driver: &mut Driver) {
    let mapped = driver.mapped();
    match driver.rng.pick(&mapped) {
        Some(va) => {
            serve(driver, Call::Del { va });
        }
        None if driver.rng.percent(50) => change_list(driver),
        None => switch(driver),
    }
}

fn change_list(driver: &mut Driver) {
    let tables =
        driver.physical(|page| page.is_some_and(|page| driver.state.page(page).is_table()));
    if let Some(pa) = driver.rng.pick(&tables) {
        serve(driver, Call::Lswitch { pa });
    }
}

/// A guest that was left with a call is switched to once that is dropped.
pub fn switch(driver: &mut Driver) {
    if !driver.stop_guest() {
        return;
    }
    let (mut to, left) = (driver.free_guests(), driver.left_behind());
    if driver.rng.percent(15) {
        to = vec![driver.guest()];
    } else if !left.is_empty() && (to.is_empty() || driver.rng.percent(20)) {
        to = left;
    }
    if let Some(guest) = driver.rng.pick(&to) {
        driver.accept(Action::Drop { guest });
        driver.accept(Action::Switch { guest });
    }
    if driver.rng.percent(70) {
        driver.run_guest();
    }
}

/// Actions that touch no page.
fn quiet(driver: &mut Driver) {
    driver.accept(Action::Silent);
    if driver.rng.percent(50) {
        driver.stop_guest();
    } else {
        driver.run_guest();
    }
}

/// A call that may be served or not, if the guest can make one.
fn ask(driver: &mut Driver) -> bool {
    let (number, a, b) = calls::any(&mut driver.rng);
    let call = Call::from_numbers(number, a, b);
    driver.run_guest() && driver.accept(Action::Hcall(call))
}

/// The host declines a call: one that a guest was left with, or the active guest's.
fn decline(driver: &mut Driver) {
    let left = driver.left_behind();
    if !left.is_empty() && driver.rng.percent(40) {
        if let (true, Some(guest)) = (driver.stop_guest(), driver.rng.pick(&left)) {
            driver.accept(Action::Drop { guest });
        }
        return;
    }
    if ask(driver) {
        if driver.rng.percent(30) {
            access(driver);
        }
        driver.accept(Action::Drop { guest: driver.guest() });
    }
    if driver.rng.percent(70) {
        driver.run_guest();
    }
}

/// Leaves a guest with its call pending: it doesn't run until that is dropped.
fn leave_behind(driver: &mut Driver) {
    if !ask(driver) {
        return;
    }
    let others = driver.free_guests();
    if let Some(guest) = driver.rng.pick(&others) {
        driver.accept(Action::Switch { guest });
    }
}

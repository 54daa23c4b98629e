//! Runs in a small world: few pages, tables and addresses, all of them used by all at once.

use second::gen::driver::Driver;
use second::state::Kind;
use second::{encode, Action, Call, GuestId, Phys, Virt, STEALTH};

/// Three addresses of set 0, two of set 1, and the stealth address.
const ADDRESSES: [u8; 6] = [0, 8, 16, 1, 9, 7];
const DATA: [u8; 4] = [1, 2, 3, 4];
const TABLES: [u8; 3] = [0, 5, 6];

pub fn records(seed: u64, count: usize) -> Vec<[u8; 8]> {
    let mut driver = Driver::new(seed ^ 0x0063_726F_7764, count);
    driver.misses = [0, 8, 30][seed as usize % 3];
    let guests = 1 + seed as usize % 4;
    while driver.goes_on() {
        match driver.rng.below(22) {
            0..=9 => access(&mut driver),
            10..=15 => serve(&mut driver),
            16 | 17 => switch(&mut driver, guests),
            18 => {
                driver.run_guest();
            }
            19 => {
                driver.stop_guest();
            }
            20 => leave(&mut driver, guests),
            _ => decline(&mut driver),
        }
    }
    driver.records
}

fn some<T>(driver: &mut Driver, numbers: &[u8], make: fn(u8) -> Option<T>) -> T {
    let number = driver.rng.pick(numbers).expect("there are some");
    make(number).expect("in range")
}

/// Mapped or not: what is not is left out.
fn access(driver: &mut Driver) {
    for _ in 0..1 + driver.rng.below(6) {
        let hyper = !driver.is_running();
        let va = some(driver, &ADDRESSES, Virt::new);
        let value = driver.rng.below(1000) as u32;
        let reads = driver.rng.percent(50);
        driver.accept(if reads {
            Action::Read { hyper, va }
        } else {
            Action::Write { hyper, va, value }
        });
    }
}

/// A call that can be served, and its action at once or after accesses of the host. One that
/// cannot is left out, or refused.
fn serve(driver: &mut Driver) {
    let call = some_call(driver);
    if driver.would_serve(call) != 0 {
        return refused(driver, call);
    }
    if !driver.run_guest() {
        return;
    }
    driver.accept(Action::Hcall(Some(call)));
    if driver.rng.percent(20) {
        access(driver);
    }
    driver.accept(call.action());
}

fn some_call(driver: &mut Driver) -> Call {
    let va = some(driver, &ADDRESSES, Virt::new);
    let data = some(driver, &DATA, Phys::new);
    let table = some(driver, &TABLES, Phys::new);
    match driver.rng.below(16) {
        0 => Call::Pin { pa: data, kind: Kind::Data },
        1 => Call::Pin { pa: table, kind: Kind::Table },
        2 => Call::Unpin { pa: data },
        3 => Call::Unpin { pa: table },
        4..=6 => Call::Lswitch { pa: table },
        7..=9 => Call::Del { va },
        10 | 11 => Call::New { va: STEALTH, pa: data },
        _ => Call::New { va, pa: data },
    }
}

/// Where near misses are wanted, a call whose action is refused; it is dropped at once, or left.
fn refused(driver: &mut Driver, call: Call) {
    let wanted = driver.misses > 0 && driver.rng.percent(30);
    if !wanted || !driver.run_guest() {
        return;
    }
    driver.accept(Action::Hcall(Some(call)));
    driver.give(encode(call.action()));
    if driver.rng.percent(80) {
        driver.accept(Action::Drop { guest: driver.guest() });
    }
}

fn switch(driver: &mut Driver, guests: usize) {
    if driver.stop_guest() {
        let guest = GuestId::new(driver.rng.below(guests) as u8).expect("in range");
        driver.accept(Action::Switch { guest });
    }
}

/// A call that nobody serves, and perhaps another guest goes on.
fn leave(driver: &mut Driver, guests: usize) {
    let call = some_call(driver);
    if driver.run_guest() {
        driver.accept(Action::Hcall(Some(call)));
        switch(driver, guests);
    }
}

/// A call dropped, whoever has it; where near misses are wanted, also a drop that may be refused.
fn decline(driver: &mut Driver) {
    if driver.misses > 0 && driver.rng.percent(40) {
        let guest = driver.rng.below(5) as u8;
        driver.give([15, guest, 0, 0, 0, 0, 0, 0]);
    }
    let with_call: Vec<GuestId> = GuestId::all().filter(|g| driver.has_call(*g)).collect();
    if let Some(guest) = driver.rng.pick(&with_call).filter(|_| driver.stop_guest()) {
        driver.accept(Action::Drop { guest });
    }
}

//! Runs in which one guest, V, keeps values at 7 and elsewhere, and others come between.

use second::gen::driver::Driver;
use second::state::Kind;
use second::{encode, Action, Call, GuestId, Phys, Virt, STEALTH};

use crate::blind::Records;

/// Physical addresses of data for any address, of data for 7, of tables, and of the page that is passed on.
const DATA: [u8; 4] = [1, 2, 3, 4];
const STEALTHY: [u8; 2] = [5, 6];
const TABLES: [u8; 3] = [0, 8, 9];
const PASSED: u8 = 10;

struct Keeper {
    driver: Driver,
    v: GuestId,
    others: Vec<GuestId>,
    /// Four addresses of one set, one of another.
    addresses: [u8; 5],
}

pub fn records(v: GuestId, seed: u64, count: usize) -> Records {
    let mut driver = Driver::new(seed ^ 0x006B_6565_7065, count);
    driver.misses = [0, 0, 10, 25][seed as usize % 4];
    let others: Vec<GuestId> = GuestId::all().filter(|guest| *guest != v).collect();
    let first = driver.rng.below(others.len());
    let others = others[first..].to_vec();
    let set = (seed % 7) as u8;
    let addresses = [set, set + 8, set + 16, set + 24, (set + 1) % 7];
    let mut keeper = Keeper { driver, v, others, addresses };
    keeper.settle();
    while keeper.driver.goes_on() {
        keeper.go();
    }
    keeper.driver.records
}

fn phys(number: u8) -> Phys {
    Phys::new(number).expect("in range")
}

impl Keeper {
    fn go(&mut self) {
        match self.driver.rng.below(40) {
            0..=15 => self.touch(),
            16..=21 => self.map(),
            22..=24 => self.stealth(),
            25 | 26 => self.list(),
            27 | 28 => self.del(),
            29 => self.refused(),
            30..=33 => self.turn(true),
            34..=36 => self.turn(false),
            _ => self.pass_on(),
        }
    }

    /// Another guest and V get pages at 7 and in one set.
    fn settle(&mut self) {
        for of_v in [false, true] {
            self.turn(of_v);
            self.stealth();
            for _ in 0..2 + 2 * of_v as usize {
                self.map();
            }
        }
    }

    fn some(&mut self, numbers: &[u8]) -> u8 {
        self.driver.rng.pick(numbers).expect("there are some")
    }

    fn address(&mut self) -> Virt {
        let addresses = self.addresses;
        Virt::new(self.some(&addresses)).expect("in range")
    }

    /// Call and action, at once or after accesses of the host; left out where it would be refused.
    fn serve(&mut self, call: Call) -> bool {
        if self.driver.would_serve(call) != 0 || !self.driver.run_guest() {
            return false;
        }
        self.driver.accept(Action::Hcall(Some(call)));
        if self.driver.rng.percent(15) {
            self.access();
        }
        let served = self.driver.accept(call.action());
        if self.driver.rng.percent(80) {
            self.driver.run_guest();
        }
        served
    }

    /// One read or write in the mode that is on, mostly of what is mapped.
    fn access(&mut self) {
        let mapped = self.driver.mapped();
        let any = self.address();
        let va = match self.driver.rng.below(10) {
            0..=2 => STEALTH,
            3 => any,
            _ => self.driver.rng.pick(&mapped).unwrap_or(any),
        };
        let (hyper, value) = (!self.driver.is_running(), self.driver.rng.draw() as u32 >> 8);
        let reads = self.driver.rng.percent(45);
        let action =
            if reads { Action::Read { hyper, va } } else { Action::Write { hyper, va, value } };
        match self.driver.rng.percent(10) {
            true => self.driver.give(encode(action)) == 0,
            false => self.driver.accept(action),
        };
    }

    fn touch(&mut self) {
        for _ in 0..1 + self.driver.rng.below(6) {
            self.access();
        }
    }

    fn pinned(&mut self, pa: Phys, kind: Kind) {
        self.serve(Call::Pin { pa, kind });
    }

    /// A page has mostly an address of its own, and else is shared.
    fn map(&mut self) {
        let (page, any) = (self.some(&DATA), self.address());
        let own = Virt::new(self.addresses[page as usize - 1]).expect("in range");
        let (pa, va) = (phys(page), if self.driver.rng.percent(90) { own } else { any });
        self.pinned(pa, Kind::Data);
        self.serve(Call::New { va, pa });
    }

    fn stealth(&mut self) {
        let pa = phys(self.some(&STEALTHY));
        self.pinned(pa, Kind::Data);
        self.serve(Call::New { va: STEALTH, pa });
    }

    fn list(&mut self) {
        let pa = phys(self.some(&TABLES));
        self.pinned(pa, Kind::Table);
        self.serve(Call::Lswitch { pa });
    }

    fn del(&mut self) {
        let mapped = self.driver.mapped();
        if let Some(va) = self.driver.rng.pick(&mapped) {
            self.serve(Call::Del { va });
        }
    }

    /// A call that cannot be served, declined or not.
    fn refused(&mut self) {
        let (pa, va) = (phys(self.some(&DATA)), self.address());
        let calls = [Call::New { va: STEALTH, pa }, Call::Del { va }, Call::Unpin { pa }];
        let call = calls[self.driver.rng.below(calls.len())];
        if self.driver.run_guest() {
            self.driver.accept(Action::Hcall(Some(call)));
            self.driver.give(encode(call.action()));
            let guest = self.driver.guest();
            self.driver.accept(Action::Drop { guest });
        }
    }

    /// V, or another guest, gets its turn.
    fn turn(&mut self, of_v: bool) {
        let other = self.driver.rng.pick(&self.others).unwrap_or(self.v);
        let guest = if of_v { self.v } else { other };
        self.driver.stop_guest();
        self.driver.accept(Action::Drop { guest });
        self.driver.accept(Action::Switch { guest });
        if self.driver.rng.percent(85) {
            self.driver.run_guest();
        }
    }

    /// V writes to a page, at 7 or elsewhere, and gives it back; another guest gets it, or V again.
    fn pass_on(&mut self) {
        self.turn(true);
        self.use_page(true);
        let pa = phys(PASSED);
        if self.serve(Call::Unpin { pa }) {
            let again = self.driver.rng.percent(20);
            self.turn(again);
            self.use_page(false);
            self.serve(Call::Unpin { pa });
        }
    }

    fn use_page(&mut self, writes: bool) {
        let (pa, hidden) = (phys(PASSED), self.driver.rng.percent(40));
        let va = if hidden { STEALTH } else { self.address() };
        self.pinned(pa, Kind::Data);
        self.serve(Call::Del { va });
        self.serve(Call::New { va, pa });
        self.driver.run_guest();
        let value = 1 + self.driver.rng.below(1000) as u32;
        if writes {
            self.driver.accept(Action::Write { hyper: false, va, value });
        }
        self.driver.accept(Action::Read { hyper: false, va });
        self.serve(Call::Del { va });
    }
}

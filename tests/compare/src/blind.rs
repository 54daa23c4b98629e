//! Journals written with no machine beside them, so that nothing of the second program chooses what is tried.

use second::rng::Rng;

pub type Records = Vec<[u8; 8]>;

pub const fn record(kind: u8, a: u8, b: u8, call: u8) -> [u8; 8] {
    [kind, a, b, call, 0, 0, 0, 0]
}

pub const RET_CTRL: [u8; 8] = [11, 0, 0, 0, 0, 0, 0, 0];
pub const CHMOD: [u8; 8] = [12, 0, 0, 0, 0, 0, 0, 0];

/// The action of each call, from 1 on.
const ACTIONS: [u8; 5] = [5, 7, 9, 13, 14];

/// The record that serves a call.
pub fn action(call: u8, a: u8, b: u8) -> [u8; 8] {
    let kind = if call == 1 && a == 7 { 6 } else { ACTIONS[call as usize - 1] };
    record(kind, a, b, 0)
}

/// Call, action, and the guest runs again.
fn serve(out: &mut Records, call: u8, a: u8, b: u8) {
    out.extend([record(10, a, b, call), action(call, a, b), CHMOD]);
}

pub fn new(out: &mut Records, va: u8, pa: u8) {
    serve(out, 1, va, pa);
}

fn del(out: &mut Records, va: u8) {
    serve(out, 2, va, 0);
}

/// Where it is refused, its call is dropped, so that the guest runs on, mapped or not: the one
/// that the last switch names.
fn del_or_drop(out: &mut Records, va: u8) {
    let last = out.iter().rev().find(|record| record[0] == 8).map_or(0, |switch| switch[1]);
    out.extend([record(10, va, 0, 2), action(2, va, 0), record(15, last, 0, 0), CHMOD]);
}

fn lswitch(out: &mut Records, pa: u8) {
    serve(out, 3, pa, 0);
}

pub fn pin(out: &mut Records, pa: u8, table: bool) {
    serve(out, 4, pa, table as u8);
}

fn unpin(out: &mut Records, pa: u8) {
    serve(out, 5, pa, 0);
}

fn switch(out: &mut Records, guest: u8) {
    out.extend([RET_CTRL, record(8, guest, 0, 0), CHMOD]);
}

/// The guest runs, whatever calls there are and whichever guest is active.
pub fn come(out: &mut Records, guest: u8) {
    out.extend([RET_CTRL, record(15, guest, 0, 0), record(8, guest, 0, 0), CHMOD]);
}

pub fn write(out: &mut Records, va: u8, value: u32) {
    let v = value.to_le_bytes();
    out.push([3, va, 0, 0, v[0], v[1], v[2], v[3]]);
}

pub fn read(out: &mut Records, va: u8) {
    out.push(record(1, va, 0, 0));
}

/// Scripts after which a guest that ran runs again; late in the run now and then one that may be
/// refused, and a guest whose call is refused is stuck until it is dropped.
pub fn scripts(seed: u64, count: usize) -> Records {
    let mut rng = Rng::new(seed ^ 0x0062_6C69_6E64);
    let mut out = Vec::new();
    for guest in 0..1 + seed as u8 % 4 {
        switch(&mut out, guest);
        for pa in 1..9 {
            pin(&mut out, pa, TABLES.contains(&pa));
        }
    }
    while out.len() < count {
        let late = out.len() > count / 3 * 2;
        match rng.below(80) {
            0 if late => risky(&mut out, &mut rng),
            1 if late && rng.percent(50) => come(&mut out, rng.below(4) as u8),
            0..=20 => careful(&mut out, &mut rng, 1 + seed as usize % 4),
            21..=50 => write(&mut out, some_address(&mut rng), rng.draw() as u32),
            _ => read(&mut out, some_address(&mut rng)),
        }
    }
    out.truncate(count);
    out
}

/// Physical addresses of data to be mapped anywhere, of data for the stealth address
/// alone, and of tables.
const SHARED: [u8; 4] = [1, 2, 3, 4];
const STEALTHY: [u8; 2] = [5, 6];
const TABLES: [u8; 3] = [0, 7, 8];

fn some_address(rng: &mut Rng) -> u8 {
    rng.pick(&[0, 8, 16, 24, 1, 9, 46, 7, 7]).unwrap_or(0)
}

fn careful(out: &mut Records, rng: &mut Rng, guests: usize) {
    let va = rng.pick(&[0, 8, 16, 24, 1, 9, 46]).unwrap_or(0);
    let of = |rng: &mut Rng, from: &[u8]| rng.pick(from).unwrap_or(0);
    match rng.below(12) {
        0..=3 => new(out, va, of(rng, &SHARED)),
        4 if rng.percent(50) => {
            new(out, va, of(rng, &SHARED));
            del(out, va);
        }
        4 => del_or_drop(out, va),
        5 => {
            del_or_drop(out, 7);
            if rng.percent(80) {
                new(out, 7, of(rng, &STEALTHY));
            }
        }
        6 | 7 => lswitch(out, of(rng, &TABLES)),
        8 => {
            pin(out, 9, false);
            use_page(out, 9, rng.draw() as u32);
            unpin(out, 9);
        }
        9 | 10 => switch(out, rng.below(guests) as u8),
        _ => out.extend([RET_CTRL, record(2, va, 0, 0), [4, 7, 0, 0, va, 0, 0, 1], CHMOD]),
    }
}

fn risky(out: &mut Records, rng: &mut Rng) {
    let va = rng.pick(&[0, 8, 7, 7, 15, 47, 63]).unwrap_or(0);
    let pa = rng.below(12) as u8;
    match rng.below(7) {
        0 => new(out, va, pa),
        1 => unpin(out, pa),
        2 => pin(out, pa, rng.percent(50)),
        3 => lswitch(out, pa),
        4 => serve(out, 1 + rng.below(5) as u8, va, pa),
        5 => del(out, va),
        _ => out.push(record(rng.below(17) as u8, va, pa, rng.below(6) as u8)),
    }
}

/// All pages used up over all guests, given back and taken again, with values that
/// must not come back; at the end too many are asked for.
pub fn fill(seed: u64) -> Records {
    let mut rng = Rng::new(seed ^ 0x6669_6C6C);
    let first = rng.below(4) as u8;
    let order: Vec<u8> = (0..4).map(|i| (first + i) % 4).collect();
    let mut out = Vec::new();
    let mut left = 56;
    for guest in &order {
        switch(&mut out, *guest);
        for pa in (1..16).take(left) {
            pin(&mut out, pa, is_table(pa));
            left -= 1;
        }
        use_page(&mut out, 1 + rng.below(3) as u8, rng.draw() as u32);
    }
    for _ in 0..40 {
        switch(&mut out, rng.below(4) as u8);
        give_and_take(&mut out, &mut rng);
    }
    too_many(&mut out, &order, &mut rng);
    out
}

/// What `fill` pins at an address.
fn is_table(pa: u8) -> bool {
    matches!(pa, 5 | 10 | 15)
}

/// Leaves a value in the page, and no entry.
fn use_page(out: &mut Records, pa: u8, value: u32) {
    new(out, 8, pa);
    write(out, 8, value);
    read(out, 8);
    del(out, 8);
}

/// One of the addresses that every guest has.
fn give_and_take(out: &mut Records, rng: &mut Rng) {
    let pa = 1 + rng.below(11) as u8;
    if !is_table(pa) {
        use_page(out, pa, rng.draw() as u32);
    }
    unpin(out, pa);
    pin(out, pa, is_table(pa));
    if !is_table(pa) {
        new(out, 0, pa);
        read(out, 0);
        del(out, 0);
    }
}

/// The last guest asks for a 57th page and is stuck; after one unpin of another a pin
/// passes. Then each gets stuck: at an address that is taken, or by its current table.
/// At the end all of them come back.
fn too_many(out: &mut Records, order: &[u8], rng: &mut Rng) {
    switch(out, order[3]);
    pin(out, 15, rng.percent(50));
    for (i, guest) in order[..3].iter().enumerate() {
        out.extend([record(8, *guest, 0, 0), CHMOD]);
        give_and_take(out, rng);
        unpin(out, 11);
        pin(out, 11, false);
        match i {
            0 => pin(out, 11, true),
            1 => unpin(out, 0),
            _ => move_house(out),
        }
    }
    for guest in order.iter().rev() {
        come(out, *guest);
        use_page(out, 2, rng.draw() as u32);
    }
}

/// Another table in force: the first one can be given back, the other one not.
fn move_house(out: &mut Records) {
    lswitch(out, 5);
    unpin(out, 0);
    pin(out, 0, false);
    unpin(out, 5);
}

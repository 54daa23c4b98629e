//! Twins written by hand: few records, so that what is met in them can be told.

use second::secrecy::records;
use second::step::judge;
use second::{GuestId, Policy, State};

use crate::blind::{come, new, pin, read, record, write, Records, CHMOD, RET_CTRL};
use crate::task::On;
use crate::twins::{journal, Twins};

const SILENT: [u8; 8] = [0; 8];

type Change = fn(&mut Records, bool);

/// Records that both have, then what each has of its own.
fn sample(v: u8, policy: Policy, first: fn(&mut Records), rest: Change) -> Twins {
    let v = GuestId::new(v).expect("a guest");
    let journals = [false, true].map(|other| {
        let mut out = Vec::new();
        first(&mut out);
        rest(&mut out, other);
        journal(&out)
    });
    let on = [On::Fresh(policy), On::Fresh(policy)];
    Twins { profile: "keeper", seed: 0, v, on, journals }
}

/// The same from the machines that the beginnings lead to.
fn later(before: Twins, after: Twins) -> Twins {
    let machines = [0, 1].map(|i| {
        let mut state: State = before.on[i].state();
        records(&before.journals[i]).for_each(|record| {
            judge(&mut state, record);
        });
        On::Machine(state.to_bytes())
    });
    Twins { on: machines, ..after }
}

fn none(_: &mut Records) {}

/// Guest 0 has a page at 7 and at three addresses of set 0, and slot 7 is empty.
fn settled(out: &mut Records) {
    for (pa, va) in [(1, 7), (2, 0), (3, 8), (4, 16)] {
        pin(out, pa, false);
        new(out, va, pa);
    }
    come(out, 0);
}

/// The machines differ in all that is hidden: slot 7, a value in memory, one in a line, one in set 7.
pub fn all_at_once() -> Twins {
    sample(0, Policy::WriteBack, settled, |out, other| {
        for va in [0, 8, 16] {
            write(out, va, 5 + other as u32);
        }
        if other {
            write(out, 7, 300);
        }
    })
}

/// A page that V has written goes to another guest, under write-through.
pub fn passed_on() -> Twins {
    sample(1, Policy::WriteThrough, none, |out, other| {
        come(out, 1);
        pin(out, 1, false);
        new(out, 8, 1);
        write(out, 8, 1 + other as u32);
        out.extend([record(10, 8, 0, 2), record(7, 8, 0, 0), CHMOD]);
        out.extend([record(10, 1, 0, 5), record(14, 1, 0, 0)]);
        come(out, 3);
        pin(out, 2, false);
        new(out, 0, 2);
        read(out, 0);
    })
}

/// What V does at 7, where nothing is mapped: another kind, other bytes, put in, left out.
pub fn refused_at_7() -> Twins {
    const ONE: [[u8; 8]; 5] =
        [record(1, 7, 0, 0), record(3, 7, 0, 0), CHMOD, record(2, 7, 9, 0), SILENT];
    const OTHER: [[u8; 8]; 6] = [
        record(2, 7, 0, 0),
        [3, 7, 0, 0, 1, 0, 0, 0],
        CHMOD,
        record(4, 7, 0, 0),
        record(3, 7, 0, 6),
        SILENT,
    ];
    sample(0, Policy::WriteBack, none, |out, other| match other {
        false => out.extend(ONE.into_iter().chain([record(1, 7, 0, 0)])),
        true => out.extend(OTHER),
    })
}

/// Values of V's writes that are refused, or go to a page not cacheable.
pub fn other_values() -> Twins {
    sample(0, Policy::WriteBack, settled, |out, other| {
        new(out, 1, 2);
        let value = 1 + other as u8;
        for [kind, a, b] in [[3, 1, 0], [3, 1, 1], [4, 1, 0], [3, 15, 0], [3, 2, 0]] {
            out.push([kind, a, b, 0, 0, 0, 0, value]);
        }
    })
}

/// From two machines: V is switched away from with another value at 7, and back.
pub fn from_two() -> Twins {
    let turned = sample(0, Policy::WriteBack, none, |out, _| {
        out.extend([RET_CTRL, record(8, 2, 0, 0), record(8, 0, 0, 0)]);
    });
    later(all_at_once(), turned)
}

/// No twins: V tells another address; another guest writes another value; the machines differ in what is not V's, with a record
/// and without.
pub fn no_twins() -> [(Twins, &'static str); 4] {
    let told = |out: &mut Records, other: bool| read(out, other as u8);
    let others = |out: &mut Records, other: bool| write(out, 8, other as u32);
    let apart = |rest: Change| {
        let on = Policy::BOTH.map(On::Fresh);
        Twins { on, ..sample(0, Policy::WriteBack, none, rest) }
    };
    [
        (sample(0, Policy::WriteBack, none, told), OPEN),
        (sample(1, Policy::WriteBack, settled, others), OPEN),
        (apart(|out, _| out.push(SILENT)), "the second program: not the same is seen"),
        (apart(|_, _| {}), "the second program: the ends differ"),
    ]
}

const OPEN: &str = "the open records are not the same";

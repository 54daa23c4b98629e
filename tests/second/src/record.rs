//! Records: eight bytes, read as an action with arguments in range, and back.

use crate::numbers::{GuestId, Phys, Virt, STEALTH};
use crate::state::{Kind, Pending};

/// A call that a guest may leave for the host.
#[derive(Clone, Copy, PartialEq, Eq, Debug)]
pub enum Call {
    New { va: Virt, pa: Phys },
    Del { va: Virt },
    Lswitch { pa: Phys },
    Pin { pa: Phys, kind: Kind },
    Unpin { pa: Phys },
}

#[derive(Clone, Copy, PartialEq, Eq, Debug)]
pub enum Action {
    Silent,
    /// read, or read_hyper.
    Read {
        hyper: bool,
        va: Virt,
    },
    /// write, or write_hyper.
    Write {
        hyper: bool,
        va: Virt,
        value: u32,
    },
    New {
        va: Virt,
        pa: Phys,
    },
    NewSm {
        pa: Phys,
    },
    Del {
        va: Virt,
    },
    Switch {
        guest: GuestId,
    },
    Lswitch {
        pa: Phys,
    },
    Hcall(Option<Call>),
    RetCtrl,
    Chmod,
    Pin {
        pa: Phys,
        kind: Kind,
    },
    Unpin {
        pa: Phys,
    },
    Drop {
        guest: GuestId,
    },
}

impl Call {
    /// None for a number outside 1 to 5, an argument out of range, or an unused
    /// one that is not zero.
    pub fn from_numbers(number: u8, a: u8, b: u8) -> Option<Call> {
        if matches!(number, 2 | 3 | 5) && b != 0 {
            return None;
        }
        Some(match number {
            1 => Call::New { va: Virt::new(a)?, pa: Phys::new(b)? },
            2 => Call::Del { va: Virt::new(a)? },
            3 => Call::Lswitch { pa: Phys::new(a)? },
            4 => Call::Pin { pa: Phys::new(a)?, kind: pinned_kind(b)? },
            5 => Call::Unpin { pa: Phys::new(a)? },
            _ => return None,
        })
    }

    pub fn pending(self) -> Pending {
        let (number, a, b) = match self {
            Call::New { va, pa } => (1, va.byte(), pa.byte()),
            Call::Del { va } => (2, va.byte(), 0),
            Call::Lswitch { pa } => (3, pa.byte(), 0),
            Call::Pin { pa, kind } => (4, pa.byte(), pin_argument(kind)),
            Call::Unpin { pa } => (5, pa.byte(), 0),
        };
        Pending { number, a, b }
    }

    /// The action that serves the call; new at the stealth address is new_sm's.
    pub fn action(self) -> Action {
        match self {
            Call::New { va, pa } if va == STEALTH => Action::NewSm { pa },
            Call::New { va, pa } => Action::New { va, pa },
            Call::Del { va } => Action::Del { va },
            Call::Lswitch { pa } => Action::Lswitch { pa },
            Call::Pin { pa, kind } => Action::Pin { pa, kind },
            Call::Unpin { pa } => Action::Unpin { pa },
        }
    }
}

impl Action {
    /// The call that must be pending for this action, if it serves one.
    pub fn call_served(self) -> Option<Call> {
        match self {
            Action::New { va, pa } => Some(Call::New { va, pa }),
            Action::NewSm { pa } => Some(Call::New { va: STEALTH, pa }),
            Action::Del { va } => Some(Call::Del { va }),
            Action::Lswitch { pa } => Some(Call::Lswitch { pa }),
            Action::Pin { pa, kind } => Some(Call::Pin { pa, kind }),
            Action::Unpin { pa } => Some(Call::Unpin { pa }),
            _ => None,
        }
    }
}

fn pinned_kind(b: u8) -> Option<Kind> {
    match b {
        0 => Some(Kind::Data),
        1 => Some(Kind::Table),
        _ => None,
    }
}

fn pin_argument(kind: Kind) -> u8 {
    (kind == Kind::Table) as u8
}

/// The action of a record; None is refusal 2.
pub fn decode(record: &[u8]) -> Option<Action> {
    let &[kind, a, b, call, v0, v1, v2, v3] = record else { return None };
    let value = u32::from_le_bytes([v0, v1, v2, v3]);
    let value_is_used = matches!(kind, 3 | 4);
    if (kind != 10 && call != 0) || (!value_is_used && value != 0) {
        return None;
    }
    match kind {
        1..=4 | 7 | 8 | 9 | 14 | 15 => decode_one(kind, a, b, value),
        0 | 11 | 12 => decode_bare(kind, a, b),
        5 => Some(Action::New { va: Virt::new(a)?, pa: Phys::new(b)? }),
        6 if a == STEALTH.byte() => Some(Action::NewSm { pa: Phys::new(b)? }),
        10 => decode_hcall(call, a, b),
        13 => Some(Action::Pin { pa: Phys::new(a)?, kind: pinned_kind(b)? }),
        _ => None,
    }
}

fn decode_bare(kind: u8, a: u8, b: u8) -> Option<Action> {
    let action = match kind {
        0 => Action::Silent,
        11 => Action::RetCtrl,
        _ => Action::Chmod,
    };
    (a == 0 && b == 0).then_some(action)
}

fn decode_one(kind: u8, a: u8, b: u8, value: u32) -> Option<Action> {
    if b != 0 {
        return None;
    }
    Some(match kind {
        1 | 2 => Action::Read { hyper: kind == 2, va: Virt::new(a)? },
        3 | 4 => Action::Write { hyper: kind == 4, va: Virt::new(a)?, value },
        7 => Action::Del { va: Virt::new(a)? },
        8 => Action::Switch { guest: GuestId::new(a)? },
        9 => Action::Lswitch { pa: Phys::new(a)? },
        14 => Action::Unpin { pa: Phys::new(a)? },
        _ => Action::Drop { guest: GuestId::new(a)? },
    })
}

fn decode_hcall(call: u8, a: u8, b: u8) -> Option<Action> {
    match (call, a, b) {
        (0, 0, 0) => Some(Action::Hcall(None)),
        _ => Call::from_numbers(call, a, b).map(|call| Action::Hcall(Some(call))),
    }
}

/// The record of an action, for the generators and tests.
pub fn encode(action: Action) -> [u8; 8] {
    let (kind, a, b) = match action {
        Action::Silent => (0, 0, 0),
        Action::Read { hyper, va } => (1 + hyper as u8, va.byte(), 0),
        Action::Write { hyper, va, .. } => (3 + hyper as u8, va.byte(), 0),
        Action::New { va, pa } => (5, va.byte(), pa.byte()),
        Action::NewSm { pa } => (6, STEALTH.byte(), pa.byte()),
        Action::Del { va } => (7, va.byte(), 0),
        Action::Switch { guest } => (8, guest.byte(), 0),
        Action::Lswitch { pa } => (9, pa.byte(), 0),
        Action::Hcall(call) => {
            let stored = call.map_or(Pending::NONE, Call::pending);
            return [10, stored.a, stored.b, stored.number, 0, 0, 0, 0];
        }
        Action::RetCtrl => (11, 0, 0),
        Action::Chmod => (12, 0, 0),
        Action::Pin { pa, kind } => (13, pa.byte(), pin_argument(kind)),
        Action::Unpin { pa } => (14, pa.byte(), 0),
        Action::Drop { guest } => (15, guest.byte(), 0),
    };
    let value = match action {
        Action::Write { value, .. } => value.to_le_bytes(),
        _ => [0; 4],
    };
    [kind, a, b, 0, value[0], value[1], value[2], value[3]]
}

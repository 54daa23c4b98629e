//! Rules 1 and 5, and of rule 10 the arguments by the call: what is tested at a guest.

use crate::broken::Where;
use crate::numbers::{GuestId, Place};
use crate::state::{Kind, Mode, Owner, Pending, State};

/// What a and b are below, by the call: in the range of what it asks for, and 0 where that does not use them.
const BELOW: [(u8, u8); 6] = [(1, 1), (64, 16), (64, 1), (16, 1), (16, 2), (16, 1)];

/// None for a number that is no call.
fn fits(pending: Pending) -> Option<bool> {
    let (a, b) = BELOW.get(usize::from(pending.number))?;
    Some(pending.a < *a && pending.b < *b)
}

/// Rule 1.
pub fn calls(s: &State) -> Option<Where> {
    GuestId::all().find(|guest| !call_is_right(s, *guest)).map(Where::Guest)
}

fn call_is_right(s: &State, guest: GuestId) -> bool {
    let pending = s.guest(guest).pending;
    let runs = s.active == guest.byte() && s.mode == Mode::Running;
    match pending.number {
        1..=5 => !runs && fits(pending) == Some(true),
        // none is stored, or the number names none
        _ => true,
    }
}

/// Rule 5.
pub fn current_tables(s: &State) -> Option<Where> {
    GuestId::all().find(|guest| !current_is_right(s, *guest)).map(Where::Guest)
}

fn current_is_right(s: &State, guest: GuestId) -> bool {
    let of = s.guest(guest);
    match of.physical.get(usize::from(of.current)) {
        Some(Place::At(page)) => {
            s.page(*page).kind == Kind::Table && s.page(*page).owner == Owner::Guest(guest)
        }
        _ => false,
    }
}

/// Rule 10, part 20. A call past 5 breaks part 7 already.
pub fn arguments(s: &State) -> Option<Where> {
    GuestId::all().find(|guest| fits(s.guest(*guest).pending) == Some(false)).map(Where::Guest)
}

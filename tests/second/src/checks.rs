//! Refusals 3 to 12 of an action on a valid state, in order of number.

use crate::numbers::{GuestId, Mach, Phys, Virt, STEALTH};
use crate::record::Action;
use crate::state::{Mode, Page, State};

/// A valid state with what its actions are about: the active guest and its table.
pub struct Scene<'a> {
    pub state: &'a State,
    pub guest: GuestId,
    pub table: Mach,
}

type Check = fn(&Scene, Action) -> bool;

/// Each check may rely on those before it not having applied.
const CHECKS: [(u8, Check); 10] = [
    (3, wrong_mode),
    (4, wrong_call),
    (5, reserved_address),
    (6, unmapped_address),
    (7, unregistered),
    (8, wrong_kind_of_page),
    (9, stealth_conflict),
    (10, already_there),
    (11, no_free_page),
    (12, still_in_use),
];

impl Scene<'_> {
    /// The state must be valid: then it has an active guest and a table in force.
    pub fn of(state: &State) -> Scene<'_> {
        let guest = GuestId::new(state.active).expect("valid: an active guest");
        let table = state.table_in_force().expect("valid: a table in force");
        Scene { state, guest, table }
    }

    fn registered(&self, pa: Phys) -> Option<Mach> {
        self.state.registered(self.guest, pa)
    }

    fn page(&self, pa: Phys) -> &Page {
        self.state.page(self.machine(pa))
    }

    /// After check 7.
    fn machine(&self, pa: Phys) -> Mach {
        self.registered(pa).expect("check 7 did not apply")
    }

    fn maps(&self, va: Virt) -> Option<Mach> {
        self.state.maps(self.table, va)
    }
}

/// The number of the first check from 3 on that applies.
pub fn refusal(state: &State, action: Action) -> Option<u8> {
    first_refusal(state, action, 3)
}

/// The same for an action whose mode and pending call are taken for granted.
pub fn refusal_when_called(state: &State, action: Action) -> Option<u8> {
    first_refusal(state, action, 5)
}

fn first_refusal(state: &State, action: Action, from: u8) -> Option<u8> {
    let scene = Scene::of(state);
    let mut asked = CHECKS.iter().filter(|(number, _)| *number >= from);
    asked.find(|(_, applies)| applies(&scene, action)).map(|(number, _)| *number)
}

/// The mode that an action needs; None for any.
fn needed_mode(action: Action) -> Option<Mode> {
    match action {
        Action::Silent => None,
        Action::Read { hyper: false, .. } | Action::Write { hyper: false, .. } => {
            Some(Mode::Running)
        }
        Action::Hcall(_) | Action::RetCtrl => Some(Mode::Running),
        _ => Some(Mode::Waiting),
    }
}

fn wrong_mode(scene: &Scene, action: Action) -> bool {
    needed_mode(action).is_some_and(|mode| mode != scene.state.mode)
}

fn wrong_call(scene: &Scene, action: Action) -> bool {
    let pending = |guest| scene.state.guest(guest).pending;
    match action {
        Action::Chmod => pending(scene.guest).is_stored(),
        Action::Switch { guest } => pending(guest).is_stored(),
        Action::Drop { guest } => !pending(guest).is_stored(),
        _ => action.call_served().is_some_and(|call| call.pending() != pending(scene.guest)),
    }
}

fn reserved_address(_: &Scene, action: Action) -> bool {
    match action {
        Action::Read { va, .. } | Action::Write { va, .. } | Action::Del { va } => va.is_reserved(),
        Action::New { va, .. } => va.is_reserved() || va == STEALTH,
        _ => false,
    }
}

fn unmapped_address(scene: &Scene, action: Action) -> bool {
    match action {
        Action::Read { va, .. } | Action::Write { va, .. } | Action::Del { va } => {
            scene.maps(va).is_none()
        }
        _ => false,
    }
}

fn unregistered(scene: &Scene, action: Action) -> bool {
    match action {
        Action::New { pa, .. }
        | Action::NewSm { pa }
        | Action::Lswitch { pa }
        | Action::Unpin { pa } => scene.registered(pa).is_none(),
        _ => false,
    }
}

fn wrong_kind_of_page(scene: &Scene, action: Action) -> bool {
    match action {
        Action::New { pa, .. } | Action::NewSm { pa } => !scene.page(pa).is_data(),
        Action::Lswitch { pa } => !scene.page(pa).is_table(),
        _ => false,
    }
}

fn stealth_conflict(scene: &Scene, action: Action) -> bool {
    let addresses = |pa| scene.state.addresses_of(scene.machine(pa));
    match action {
        Action::New { pa, .. } => addresses(pa) & STEALTH.bit() != 0,
        Action::NewSm { pa } => {
            !scene.page(pa).is_cacheable() || addresses(pa) & !STEALTH.bit() != 0
        }
        _ => false,
    }
}

fn already_there(scene: &Scene, action: Action) -> bool {
    match action {
        Action::NewSm { .. } => scene.maps(STEALTH).is_some(),
        Action::Pin { pa, .. } => scene.registered(pa).is_some(),
        _ => false,
    }
}

fn no_free_page(scene: &Scene, action: Action) -> bool {
    matches!(action, Action::Pin { .. }) && scene.state.free == 0
}

fn still_in_use(scene: &Scene, action: Action) -> bool {
    let Action::Unpin { pa } = action else { return false };
    let page = scene.page(pa);
    let machine = scene.machine(pa);
    machine == scene.table
        || (page.is_table() && page.has_entries())
        || scene.state.addresses_of(machine) != 0
}

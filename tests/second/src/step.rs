//! One step of the machine.

use crate::checks::{refusal, Scene};
use crate::numbers::{GuestId, Mach, Phys, Place, Virt, STEALTH};
use crate::record::{decode, Action, Call};
use crate::rules::valid;
use crate::state::{Kind, Mode, Owner, Page, Pending, State};

/// Judges a record and, if nothing applies, does it. Gives number and value.
pub fn step(state: &mut State, record: &[u8]) -> (u8, u32) {
    if !valid(state) {
        return (1, 0);
    }
    judge(state, record)
}

/// The same on a state that is known to be valid, and so leads only to valid states.
pub fn judge(state: &mut State, record: &[u8]) -> (u8, u32) {
    let Some(action) = decode(record) else { return (2, 0) };
    match refusal(state, action) {
        Some(number) => (number, 0),
        None => (0, apply(state, action)),
    }
}

/// An action that no check refuses, on a valid state; gives its value.
pub fn apply(state: &mut State, action: Action) -> u32 {
    let Scene { guest, table, .. } = Scene::of(state);
    match action {
        Action::Silent => {}
        Action::Read { va, .. } => return access(state, table, va, None),
        Action::Write { va, value, .. } => {
            access(state, table, va, Some(value));
        }
        Action::New { va, pa } => new(state, guest, table, va, pa),
        Action::NewSm { pa } => new_sm(state, guest, table, pa),
        Action::Del { va } => del(state, table, va),
        Action::Switch { guest: next } => change_table(state, |s| s.active = next.byte()),
        Action::Lswitch { pa } => {
            change_table(state, |s| s.guest_mut(guest).current = pa.byte());
        }
        Action::Hcall(call) => hcall(state, guest, call),
        Action::RetCtrl => state.mode = Mode::Waiting,
        Action::Chmod => state.mode = Mode::Running,
        Action::Pin { pa, kind } => pin(state, guest, pa, kind),
        Action::Unpin { pa } => unpin(state, guest, pa),
        Action::Drop { guest: named } => state.guest_mut(named).pending = Pending::NONE,
    }
    if action.call_served().is_some() {
        state.guest_mut(guest).pending = Pending::NONE;
    }
    0
}

fn registered(state: &State, guest: GuestId, pa: Phys) -> Mach {
    state.registered(guest, pa).expect("check 7 did not apply")
}

/// Reads, or writes where a value is given; gives the value held afterwards.
fn access(state: &mut State, table: Mach, va: Virt, write: Option<u32>) -> u32 {
    let page = state.maps(table, va).expect("check 6 did not apply");
    state.remember(va, page);
    let cell = if state.page(page).is_cacheable() {
        &mut state.line_for(va, page).value
    } else {
        &mut state.page_mut(page).memory
    };
    if let Some(value) = write {
        *cell = value;
    }
    let held = *cell;
    if write.is_some() && state.writes_through() {
        state.page_mut(page).memory = held;
    }
    held
}

fn new(state: &mut State, guest: GuestId, table: Mach, va: Virt, pa: Phys) {
    let page = registered(state, guest, pa);
    if let Some(old) = state.maps(table, va) {
        state.take_out_key(va, old);
    }
    state.page_mut(table).entries[va.index()] = Place::At(page);
    state.forget(va);
    let elsewhere = state.addresses_of(page) & !va.bit();
    if elsewhere != 0 {
        state.take_out_page(page);
        state.page_mut(page).mark = 0;
    }
}

fn new_sm(state: &mut State, guest: GuestId, table: Mach, pa: Phys) {
    let page = registered(state, guest, pa);
    state.page_mut(table).entries[STEALTH.index()] = Place::At(page);
    state.remember(STEALTH, page);
    state.load_stealth(table);
}

fn del(state: &mut State, table: Mach, va: Virt) {
    let page = state.maps(table, va).expect("check 6 did not apply");
    state.take_out_key(va, page);
    state.page_mut(table).entries[va.index()] = Place::Empty;
    state.forget(va);
}

/// switch and lswitch: save the stealth line, change the table, then load.
fn change_table(state: &mut State, change: impl FnOnce(&mut State)) {
    state.save_stealth();
    change(state);
    let table = state.table_in_force().expect("checks 4, 7 and 8 did not apply");
    state.load_stealth(table);
    state.forget_all();
}

fn hcall(state: &mut State, guest: GuestId, call: Option<Call>) {
    state.guest_mut(guest).pending = call.map_or(Pending::NONE, Call::pending);
    state.mode = Mode::Waiting;
}

fn pin(state: &mut State, guest: GuestId, pa: Phys, kind: Kind) {
    let lowest = state.free.trailing_zeros() as u8;
    let page = Mach::new(lowest).expect("check 11 did not apply");
    state.free &= !page.bit();
    *state.page_mut(page) = Page::owned(Owner::Guest(guest), kind);
    state.guest_mut(guest).physical[pa.index()] = Place::At(page);
}

fn unpin(state: &mut State, guest: GuestId, pa: Phys) {
    let page = registered(state, guest, pa);
    state.guest_mut(guest).physical[pa.index()] = Place::Empty;
    *state.page_mut(page) = Page::FREE;
    state.free |= page.bit();
}

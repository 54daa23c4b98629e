//! What breaks a rule at a place, by rule and part. Whether it did, and first there, is seen afterwards.

use crate::bytes::OFFSETS;
use crate::damage::places::Target;
use crate::damage::{hits_buffers as b, hits_tables as t};
use crate::numbers::{GuestId, Mach};
use crate::rng::Rng;
use crate::state::{Kind, Mode, Owner, Pending, State};

/// None where the state has no place for it.
pub type Hit = fn(&mut State, Target, &mut Rng) -> Option<()>;

pub fn of(rule: usize, part: usize) -> &'static [Hit] {
    match (rule, part) {
        (1, _) => &[call_while_running, argument_past],
        (2, _) => &[map_bit, page_value, page_mark, page_kind, page_owner],
        (3, 0) => &[t::address_nowhere, t::address_to_any, t::address_twice],
        (3, _) => &[t::page_unreached, t::page_taken],
        (4, _) => &[t::entry_nowhere, t::entry_to_any, t::entry_to_any],
        (5, _) => &[t::current_anywhere, t::current_past, t::current_led_away],
        (6, _) => &[t::page_shared, t::stealth_unmarked],
        (7, _) => &[b::line_of_any, b::line_nowhere, b::line_again],
        (8, _) => &[b::slot_of_any, b::slot_nowhere, b::slot_again],
        (9, 0) => &[b::stealth_way, b::stealth_way_gone],
        (9, _) => &[b::stealth_history],
        (10, 20) => &[argument_unfit],
        (10, 21) => &[b::empty_way],
        (10, 22) => &[b::empty_slot],
        (10, _) => &[number_past],
        _ => &[b::line_value, b::line_with_value, b::value_behind_nowhere],
    }
}

pub fn page(target: Target) -> Option<Mach> {
    Mach::new(target.place as u8)
}

pub fn guest(target: Target) -> Option<GuestId> {
    GuestId::new(target.place as u8)
}

pub fn any_page(rng: &mut Rng) -> Option<Mach> {
    Mach::new(rng.below(Mach::COUNT) as u8)
}

/// A place that is not empty and leads nowhere.
pub fn past_pages(rng: &mut Rng) -> u8 {
    65 + rng.below(191) as u8
}

fn call(s: &mut State, target: Target, (number, a, b): (u8, u8, u8)) -> Option<()> {
    s.guest_mut(guest(target)?).pending = Pending { number, a, b };
    Some(())
}

/// Fitting calls; the guest that is active alone may break the rule so.
fn call_while_running(s: &mut State, target: Target, rng: &mut Rng) -> Option<()> {
    (usize::from(s.active) == target.place).then_some(())?;
    s.mode = Mode::Running;
    call(s, target, rng.pick(&[(1, 63, 15), (2, 0, 0), (3, 15, 0), (4, 0, 1), (5, 2, 0)])?)
}

fn argument_past(s: &mut State, target: Target, rng: &mut Rng) -> Option<()> {
    let past = [(1, 64, 0), (1, 0, 16), (2, 64, 0), (2, 9, 1), (3, 16, 0), (4, 16, 1), (5, 63, 0)];
    call(s, target, rng.pick(&past)?)
}

/// Each argument below its bound whatever the call is, and not by the call.
fn argument_unfit(s: &mut State, target: Target, rng: &mut Rng) -> Option<()> {
    let unfit = [
        (0, 1, 0),
        (0, 0, 1),
        (0, 63, 15),
        (2, 63, 1),
        (3, 16, 0),
        (3, 63, 0),
        (4, 16, 0),
        (4, 0, 2),
        (4, 15, 15),
        (5, 16, 0),
        (5, 0, 15),
    ];
    call(s, target, rng.pick(&unfit)?)
}

fn map_bit(s: &mut State, target: Target, _: &mut Rng) -> Option<()> {
    s.free ^= page(target)?.bit();
    Some(())
}

fn page_value(s: &mut State, target: Target, rng: &mut Rng) -> Option<()> {
    s.page_mut(page(target)?).memory = 1 << rng.below(32);
    Some(())
}

fn page_mark(s: &mut State, target: Target, rng: &mut Rng) -> Option<()> {
    s.page_mut(page(target)?).mark = rng.pick(&[0, 0, 2, 255])?;
    Some(())
}

fn page_kind(s: &mut State, target: Target, rng: &mut Rng) -> Option<()> {
    s.page_mut(page(target)?).kind =
        rng.pick(&[Kind::None, Kind::Data, Kind::Table, Kind::Odd(3)])?;
    Some(())
}

fn page_owner(s: &mut State, target: Target, rng: &mut Rng) -> Option<()> {
    let owners = [Owner::Nobody, Owner::Host, Owner::Odd(6), Owner::Odd(255)];
    s.page_mut(page(target)?).owner = rng.pick(&owners)?;
    Some(())
}

/// What each number of a field is below (docs/IMAGE.md); 0 for those of all bytes.
const BELOW: [u8; 20] = [6, 3, 2, 65, 65, 0, 16, 6, 64, 16, 4, 2, 64, 65, 2, 64, 65, 0, 0, 2];

/// A number of a field, just past its bound, far past, or anything past.
fn number_past(s: &mut State, target: Target, rng: &mut Rng) -> Option<()> {
    let bound = *BELOW.get(target.part).filter(|bound| **bound > 0)?;
    let any = bound + rng.below(256 - usize::from(bound)) as u8;
    let mut bytes = s.to_bytes();
    bytes[OFFSETS[target.part] + target.place] = rng.pick(&[bound, bound, 255, any])?;
    *s = State::from_bytes(&bytes);
    Some(())
}

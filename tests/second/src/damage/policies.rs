//! Damages aimed at rule 11, and at what it leaves to others: policies out of range, lines that lead nowhere.

use crate::damage::aimed::any_page;
use crate::damage::buffers::{any_way, line_at, put_line, At};
use crate::numbers::{Mach, Place, Virt};
use crate::rng::Rng;
use crate::state::{Line, Policy, State};

fn asked_through(s: &State) -> Option<()> {
    s.writes_through().then_some(())
}

/// Some line, set 7 among them, that memory has or has not.
fn any_line(s: &State, rng: &mut Rng, dirty: bool) -> Option<(At, Mach)> {
    let all: Vec<(At, Mach)> = (0..8)
        .flat_map(|set| [(set, 0), (set, 1)])
        .filter(|at| s.memory_has(line_at(s, *at)) != dirty)
        .filter_map(|at| Some((at, line_at(s, at).page.page()?)))
        .collect();
    rng.pick(&all)
}

/// One bit of it, or all.
fn other_value(rng: &mut Rng, value: u32) -> u32 {
    match rng.percent(70) {
        true => value ^ 1 << rng.below(32),
        false => !value,
    }
}

pub fn line_value(s: &mut State, rng: &mut Rng) -> Option<()> {
    asked_through(s)?;
    let ((set, way), _) = any_line(s, rng, false)?;
    let line = &mut s.cache[set].ways[way];
    line.value = other_value(rng, line.value);
    Some(())
}

pub fn value_under_a_line(s: &mut State, rng: &mut Rng) -> Option<()> {
    asked_through(s)?;
    let (_, page) = any_line(s, rng, false)?;
    let memory = &mut s.page_mut(page).memory;
    *memory = other_value(rng, *memory);
    Some(())
}

fn with_a_dirty_line(s: &mut State, rng: &mut Rng, policy: Policy) -> Option<()> {
    any_line(s, rng, true)?;
    s.policy = policy;
    Some(())
}

pub fn through_with_a_dirty_line(s: &mut State, rng: &mut Rng) -> Option<()> {
    with_a_dirty_line(s, rng, Policy::WriteThrough)
}

/// Not write-through, so that rule 11 says nothing.
pub fn odd_policy_with_a_dirty_line(s: &mut State, rng: &mut Rng) -> Option<()> {
    let odd = any_odd(rng)?;
    with_a_dirty_line(s, rng, odd)
}

fn any_odd(rng: &mut Rng) -> Option<Policy> {
    let any = 2 + rng.below(254) as u8;
    rng.pick(&[2, 3, 129, 255, any]).map(Policy::Odd)
}

pub fn odd_policy(s: &mut State, rng: &mut Rng) -> Option<()> {
    s.policy = any_odd(rng)?;
    Some(())
}

/// Two lines of one page, one of them with memory's value.
pub fn key_twice_with_another_value(s: &mut State, rng: &mut Rng) -> Option<()> {
    asked_through(s)?;
    let (set, way) = any_way(s, rng, false)?;
    let line = s.cache[set].ways[way];
    let value = other_value(rng, line.value);
    put_line(s, (set, 1 - way), Line { value, ..line })
}

/// A page of any owner and kind, that memory has not so.
pub fn line_of_any_page(s: &mut State, rng: &mut Rng) -> Option<()> {
    asked_through(s)?;
    let at = any_way(s, rng, true)?;
    let page = any_page(s, rng, |_| true)?;
    let value = other_value(rng, s.page(page).memory);
    put_line(s, at, Line::new(Virt::new(at.0 as u8)?, page, value))
}

/// The address leads nowhere, and the page does not.
pub fn line_of_no_address(s: &mut State, rng: &mut Rng) -> Option<()> {
    line_value(s, rng)?;
    let ((set, way), _) = any_line(s, rng, true)?;
    s.cache[set].ways[way].address += 64;
    Some(())
}

/// The page leads nowhere, so that nothing is asked of the value.
pub fn line_nowhere_with_any_value(s: &mut State, rng: &mut Rng) -> Option<()> {
    asked_through(s)?;
    let (set, way) = any_way(s, rng, false)?;
    let page = Place::from_byte(rng.pick(&[65, 66, 128, 255])?);
    let line = &mut s.cache[set].ways[way];
    *line = Line { page, value: rng.draw() as u32, ..*line };
    Some(())
}

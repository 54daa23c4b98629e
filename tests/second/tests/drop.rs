//! Calls that the host declines.

mod support;

use second::state::{Mode, Pending};
use second::{fresh, valid, GuestId, State};
use support::Machine;

const CALL: usize = 4364;
const CALL_A: usize = 4368;
const CALL_B: usize = 4372;

const GUESTS: usize = GuestId::COUNT;
/// Every guest's bit.
const ALL: usize = (1 << GUESTS) - 1;

/// A call for each guest, with arguments where its call has them.
const CALLS: [(u8, u8, u8); GUESTS] = [(1, 63, 15), (4, 15, 1), (2, 46, 0), (3, 9, 0)];

/// The fresh machine, waiting, with calls of the guests whose bits are set.
fn waiting(active: usize, with_calls: usize) -> Machine {
    let mut state = fresh();
    state.mode = Mode::Waiting;
    state.active = active as u8;
    for guest in (0..GUESTS).filter(|guest| with_calls >> guest & 1 == 1) {
        let (number, a, b) = CALLS[guest];
        state.guests[guest].pending = Pending { number, a, b };
    }
    assert!(valid(&state));
    Machine(state)
}

fn calls(state: &State) -> [Pending; GUESTS] {
    std::array::from_fn(|guest| state.guests[guest].pending)
}

/// Every guest has a call; the active one has lines, a stealth line among them, and TLB entries.
fn in_use() -> Machine {
    let mut m = Machine::fresh();
    for (guest, (number, a, b)) in CALLS.into_iter().enumerate().rev() {
        m.ok(11, 0, 0);
        m.ok(8, guest as u8, 0);
        m.ok(12, 0, 0);
        for (pa, va) in [(1, 0), (2, 7)] {
            m.served(4, pa, 0);
            m.served(1, va, pa);
            m.write(va, 30 + va as u32);
        }
        assert_eq!(m.hcall(number, a, b), 0);
        if guest > 0 {
            m.ok(8, 0, 0);
            m.ok(12, 0, 0);
        }
    }
    m
}

#[test]
fn call_and_arguments_are_cleared_and_nothing_else() {
    let before = in_use();
    assert!(before.slot(0).is_some() && before.line(7, 0).is_some());
    assert!(before.line(7, 0).is_some_and(|(_, page, value)| before.memory(page.into()) != value));
    for guest in 0..GUESTS {
        let mut m = Machine(before.0.clone());
        let mut bytes = before.0.to_bytes();
        for field in [CALL, CALL_A, CALL_B] {
            bytes[field + guest] = 0;
        }
        assert!(bytes != before.0.to_bytes());
        assert_eq!(m.no(15, guest as u8, 0), 0, "guest {guest}");
        assert!(m.0.to_bytes() == bytes, "guest {guest}");
        assert_eq!(m.no(15, guest as u8, 0), 4, "guest {guest}, again");
    }
}

#[test]
fn each_call_is_declined() {
    for (number, a, b) in [(1, 7, 15), (2, 63, 0), (3, 15, 0), (4, 15, 1), (5, 15, 0)] {
        let mut m = Machine::fresh();
        assert_eq!(m.hcall(number, a, b), 0);
        m.ok(15, 0, 0);
        assert_eq!(m.0.guests[0].pending, Pending { number: 0, a: 0, b: 0 });
        m.ok(12, 0, 0);
        m.served(4, 1, 0);
    }
}

#[test]
fn a_guest_has_a_call_or_none_whichever_is_active() {
    for (active, named) in
        (0..GUESTS).flat_map(|active| (0..GUESTS).map(move |named| (active, named)))
    {
        let one = 1 << named;
        assert_eq!(waiting(active, one).no(15, named as u8, 0), 0, "{active} {named}");
        assert_eq!(waiting(active, ALL).no(15, named as u8, 0), 0, "{active} {named}");
        assert_eq!(waiting(active, ALL - one).no(15, named as u8, 0), 4, "{active} {named}");
        assert_eq!(waiting(active, 0).no(15, named as u8, 0), 4, "{active} {named}");
    }
}

#[test]
fn two_before_three_before_four() {
    for guest in 0..GUESTS as u8 {
        let mut m = waiting(3, 0b0101);
        m.ok(12, 0, 0);
        assert_eq!(m.no(15, guest, 0), 3, "guest {guest}");
        assert_eq!((m.no(15, guest, 1), m.no(15, guest + GUESTS as u8, 0)), (2, 2));
        m.ok(11, 0, 0);
        assert_eq!((m.no(15, guest, 1), m.no(15, guest + GUESTS as u8, 0)), (2, 2));
        assert_eq!(m.no(15, guest, 0), [0, 4, 0, 4][guest as usize], "guest {guest}");
    }
    let mut m = waiting(0, ALL);
    for at in 2..8 {
        let mut record = [15, 0, 0, 0, 0, 0, 0, 0];
        record[at] = 1;
        assert_eq!(m.give(&record).0, 2, "byte {at}");
    }
    assert_eq!(m.no(15, 255, 0), 2);
}

/// drop where there is a call, switch, chmod: from every active guest, with every set of calls.
#[test]
fn any_guest_runs_within_three_records() {
    for (active, set) in (0..GUESTS).flat_map(|active| (0..=ALL).map(move |set| (active, set))) {
        for guest in 0..GUESTS {
            let mut m = waiting(active, set);
            let mut left = calls(&m.0);
            left[guest] = Pending { number: 0, a: 0, b: 0 };
            let dropped = if set >> guest & 1 == 1 { 0 } else { 4 };
            assert_eq!(m.no(15, guest as u8, 0), dropped, "{active} {set} {guest}");
            m.ok(8, guest as u8, 0);
            m.ok(12, 0, 0);
            assert_eq!((m.0.active as usize, m.0.mode), (guest, Mode::Running));
            assert_eq!(calls(&m.0), left, "{active} {set} {guest}");
        }
    }
}

#[test]
fn a_declined_call_is_not_served() {
    let mut m = Machine::fresh();
    assert_eq!(m.hcall(4, 1, 0), 0);
    m.ok(15, 0, 0);
    assert_eq!(m.no(13, 1, 0), 4);
    m.ok(12, 0, 0);
    m.served(4, 1, 1);
    assert_eq!(m.hcall(5, 1, 0), 0);
    m.ok(8, 1, 0);
    m.ok(15, 0, 0);
    m.ok(8, 0, 0);
    assert_eq!(m.no(14, 1, 0), 4);
}

//! The guests' calls: any of them, and what came of them, seen over several records.

use crate::numbers::{GuestId, Phys, Virt};
use crate::rng::Rng;
use crate::state::State;

/// How many numbers the arguments a and b of each call have, from call 1 on.
const ARGUMENTS: [(usize, usize); 5] = [
    (Virt::COUNT, Phys::COUNT),
    (Virt::COUNT, 1),
    (Phys::COUNT, 1),
    (Phys::COUNT, 2),
    (Phys::COUNT, 1),
];

/// Any call with its arguments in range: its number, a and b.
pub fn any(rng: &mut Rng) -> (u8, u8, u8) {
    let call = rng.below(ARGUMENTS.len());
    let (a, b) = ARGUMENTS[call];
    (1 + call as u8, rng.below(a) as u8, rng.below(b) as u8)
}

pub const NAMES: [&str; 8] = [
    "call refused, then dropped",
    "call left behind by a switch, then dropped while another guest was active",
    "guest ran again after its call was dropped",
    "guest ran after drop, switch, chmod in a row, the drop done",
    "guest ran after drop, switch, chmod in a row, the drop refused",
    "call of another guest stayed when one was dropped",
    "guest did not run, its del having been refused with 6",
    "del refused with 6, its call dropped, and the guest ran again",
];

/// del and its refusal of an address that is not mapped.
const DEL_UNMAPPED: (u8, u8) = (7, 6);

#[derive(Clone, Copy, PartialEq, Default)]
enum Fate {
    #[default]
    Open,
    Refused,
    Dropped,
}

/// The fate of each guest's latest call, and the two records before with their answers.
#[derive(Default)]
pub struct Calls {
    fates: [Fate; GuestId::COUNT],
    /// Whether that call is a del that was refused with 6.
    unmapped: [bool; GuestId::COUNT],
    latest: [(u8, u8, u8); 2],
}

impl Calls {
    /// Which of these happened by a record; its state is the one before it.
    pub fn note(&mut self, record: &[u8], number: u8, before: &State) -> [bool; NAMES.len()] {
        let (kind, named, active) = (record[0], record[1], before.active as usize);
        let mut happened = [false; NAMES.len()];
        match (kind, number) {
            (10, 0) => {
                self.fates[active] = Fate::Open;
                self.unmapped[active] = false;
            }
            (5..=7 | 9 | 13 | 14, 5..) => {
                self.fates[active] = Fate::Refused;
                self.unmapped[active] = (kind, number) == DEL_UNMAPPED;
            }
            (12, 0) => {
                let in_a_row =
                    |dropped| self.latest == [(15, before.active, dropped), (8, before.active, 0)];
                happened[2] = self.fates[active] == Fate::Dropped;
                happened[3] = in_a_row(0);
                happened[4] = in_a_row(4);
                happened[7] = happened[2] && self.unmapped[active];
                self.fates[active] = Fate::Open;
            }
            (12, 4) => happened[6] = self.unmapped[active],
            (15, 0) => {
                let others = before.guests.iter().enumerate().filter(|(g, _)| *g != named as usize);
                happened[0] = self.fates[named as usize] == Fate::Refused;
                happened[1] = named as usize != active;
                happened[5] = others.into_iter().any(|(_, guest)| guest.pending.is_stored());
                self.fates[named as usize] = Fate::Dropped;
            }
            _ => {}
        }
        self.latest = [self.latest[1], (kind, named, number)];
        happened
    }
}

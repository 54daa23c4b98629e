//! What was met over all twins: changes, answers and ends from our results, the steps between from the second program's states.

use second::bytes::OFFSETS;
use second::secrecy::Told;
use second::{GuestId, STATE_BYTES};

use crate::counts::Counts;
use crate::task::On;
use crate::twin_met::{all, Met};
use crate::twin_places::{Both, Given};
use crate::twin_steps::Steps;
use crate::twins::{Twins, PROFILES};

/// Where a machine has these fields (docs/STATE.md).
const OWNER: usize = OFFSETS[0];
const LINE_PAGE: usize = OFFSETS[13];
const SLOT: usize = OFFSETS[15];
const SLOT_PAGE: usize = OFFSETS[16];
const MEMORY: usize = OFFSETS[17];
const LINE: usize = OFFSETS[18];
const ACTIVE: usize = OFFSETS[10];
const MODE: usize = OFFSETS[11];

/// Set 7 is the last.
const STEALTH_LINES: usize = 14;
const LINES: usize = 16;

pub struct TwinTally {
    pub counts: Counts<Met>,
    /// Twins, the places at which they were compared, and the told records of which the second program's states were.
    pub twins: usize,
    pub places: usize,
    pub told: usize,
}

impl Default for TwinTally {
    fn default() -> TwinTally {
        let counts = Counts::of(all(PROFILES.into_iter().map(|(profile, _)| profile)));
        TwinTally { counts, twins: 0, places: 0, told: 0 }
    }
}

impl TwinTally {
    /// Of the second program's steps; those are told records, as many in both.
    pub fn note_twins(&mut self, twins: &Twins, walked: [&[Told]; 2]) {
        self.twins += 1;
        self.told += walked[0].len();
        let from = match &twins.on {
            [On::Fresh(_), _] => 0,
            [On::Machine(one), On::Machine(other)] => 1 + (one != other) as usize,
            _ => 1,
        };
        let policy = twins.on[0].state().policy.byte();
        let met = [Met::Profile(twins.profile), Met::V(twins.v.byte()), Met::From(from, policy)];
        met.into_iter().for_each(|met| self.counts.add(met));
        let mut steps = Steps::new(twins.v);
        for (one, other) in walked[0].iter().zip(walked[1]) {
            steps.note(one, other).into_iter().for_each(|met| self.counts.add(met));
        }
    }

    /// Of our results up to a place.
    pub fn note_place(&mut self, both: &Both, at_end: bool) {
        self.places += 1;
        let ends = Ends::of(both).happened();
        for i in (0..ends.len()).filter(|i| ends[*i]) {
            self.counts.add(if at_end { Met::End(i) } else { Met::Cut(i) });
        }
        if at_end {
            let given = [both.given(0), both.given(1)];
            self.note_answers(&given);
            self.note_hidden(&given);
            self.note_values(&given);
        }
    }

    fn note_answers(&mut self, given: &[Vec<Given>; 2]) {
        for Given { record, answer, v_acts, told } in given.iter().flatten() {
            self.counts.add(match told {
                Some(_) => Met::Told(*v_acts, answer[0]),
                None => Met::Hidden(record[0], answer[0]),
            });
        }
    }

    /// Hidden records between two told ones, side by side.
    fn note_hidden(&mut self, given: &[Vec<Given>; 2]) {
        let [one, other] = given;
        let parts = |of: &[Given]| -> Vec<(usize, usize)> {
            let told: Vec<usize> = (0..of.len()).filter(|i| of[*i].told.is_some()).collect();
            let starts = [0].into_iter().chain(told.iter().map(|at| at + 1));
            let ends = told.iter().copied().chain([of.len()]);
            starts.zip(ends).collect()
        };
        for ((from, to), (start, end)) in parts(one).into_iter().zip(parts(other)) {
            let (one, other) = (&one[from..to], &other[start..end]);
            for _ in one.len()..other.len() {
                self.counts.add(Met::Change(0));
            }
            for _ in other.len()..one.len() {
                self.counts.add(Met::Change(1));
            }
            for (one, other) in one.iter().zip(other) {
                self.note_other(one, other);
            }
        }
    }

    /// A hidden record in another's place.
    fn note_other(&mut self, one: &Given, other: &Given) {
        let (a, b) = (one.record, other.record);
        let (kind, unused, value) = (a[0] != b[0], a[2..4] != b[2..4], a[4..] != b[4..]);
        let writes = matches!(a[0], 3 | 4);
        let met = [
            (kind, 2),
            (writes && value && !kind && !unused, 3),
            (unused || (value && !writes), 4),
            (one.answer[0] != other.answer[0], 5),
        ];
        for (_, i) in met.into_iter().filter(|(happened, _)| *happened) {
            self.counts.add(Met::Change(i));
        }
    }

    fn note_values(&mut self, given: &[Vec<Given>; 2]) {
        let told = |i: usize| given[i].iter().filter(|given| given.told.is_some());
        for (one, other) in told(0).zip(told(1)).filter(|(one, other)| one.record != other.record) {
            let change = match (one.answer[0], other.answer[0]) {
                (2, 2) => 8,
                (3, 3) => 9,
                (5 | 6, 5 | 6) => 10,
                // of those that are accepted the states say where to
                _ => continue,
            };
            self.counts.add(Met::Change(change));
        }
    }
}

/// Which bytes of two machines differ.
struct Ends<'a> {
    v: GuestId,
    machines: [&'a [u8]; 2],
}

impl Ends<'_> {
    fn of(both: &Both) -> Ends<'_> {
        Ends { v: both.v, machines: [both.machine(0), both.machine(1)] }
    }

    fn differ(&self, from: usize, bytes: usize) -> bool {
        let [one, other] = self.machines;
        one[from..from + bytes] != other[from..from + bytes]
    }

    fn is_vs(&self, page: usize) -> bool {
        self.machines[0][OWNER + page] == 2 + self.v.byte()
    }

    /// Lines of V's.
    fn lines(&self) -> impl Iterator<Item = usize> + '_ {
        let page = |line: usize| (self.machines[0][LINE_PAGE + line] as usize).checked_sub(1);
        (0..LINES).filter(move |line| page(*line).is_some_and(|page| self.is_vs(page)))
    }

    fn happened(&self) -> [bool; crate::twin_met::ENDS.len()] {
        let slot = self.differ(SLOT + 7, 1) || self.differ(SLOT_PAGE + 7, 1);
        let memory = (0..64).any(|page| self.is_vs(page) && self.differ(MEMORY + 4 * page, 4));
        let other = |line: &usize| self.differ(LINE + 4 * line, 4);
        let lines = self.lines().filter(|line| *line < STEALTH_LINES).any(|line| other(&line));
        let stealth = self.lines().filter(|line| *line >= STEALTH_LINES).any(|line| other(&line));
        let same = !self.differ(0, STATE_BYTES);
        let active = self.machines[0][ACTIVE] == self.v.byte();
        let running = self.machines[0][MODE] == 1;
        [
            slot,
            memory,
            lines,
            stealth,
            slot && memory && lines && stealth,
            !same,
            same,
            active && running,
            active && !running,
            !active,
            !active && self.lines().next().is_some(),
        ]
    }
}

//! What was met by feed and begin, counted from our results.

use second::damage::broken_alone;
use second::journal::MOST_RECORDS;
use second::{fresh, fresh_with, Kept, Policy, State, HEADER, STATE_BYTES};

use crate::counts::Counts;
use crate::feeds::{Feed, Given, ALL};
use crate::piece_met::{all, Met, Way, DONE, GROWN, HEADER_BYTES, MOST_BEGUN};

/// Where a machine has its policy (docs/STATE.md).
const POLICY: usize = STATE_BYTES - 1;

pub struct PieceTally {
    pub counts: Counts<Met>,
    pub calls: usize,
}

impl Default for PieceTally {
    fn default() -> PieceTally {
        PieceTally { counts: Counts::of(all()), calls: 0 }
    }
}

impl PieceTally {
    pub fn note(&mut self, feed: &Feed, ours: &[u8]) {
        self.calls += 1;
        let given = Given::of(ours);
        self.counts.add(Met::Number(given.number));
        let at_hand = AtHand::of(feed);
        let met = match given.number {
            0 => at_hand.done(&given),
            1 => at_hand.not_valid(),
            13 => at_hand.no_journal(),
            15 => at_hand.no_room(),
            _ => Vec::new(),
        };
        met.into_iter().for_each(|met| self.counts.add(met));
    }

    pub fn note_begin(&mut self, kept: &Kept) {
        let zeros = kept.iter().all(|byte| *byte == 0);
        self.counts.add(Met::Begin(if zeros { 0 } else { 1 + (kept[0] != 255) as usize }));
    }

    pub fn note_way(&mut self, way: Way) {
        self.counts.add(Met::Way(way));
    }
}

/// A call, and what docs/HOST.md calls at hand in it.
struct AtHand<'a> {
    feed: &'a Feed,
    /// Header bytes taken before, and in the piece.
    taken: usize,
    header: usize,
    begun: usize,
    bytes: usize,
    whole: usize,
    to_run: usize,
}

impl AtHand<'_> {
    fn of(feed: &Feed) -> AtHand<'_> {
        let [taken, begun] = [feed.kept[0], feed.kept[1]].map(usize::from);
        let header = HEADER_BYTES.saturating_sub(taken).min(feed.piece.len());
        let bytes = begun + feed.piece.len() - header;
        let whole = bytes / 8;
        AtHand { feed, taken, header, begun, bytes, whole, to_run: whole.min(feed.allowed()) }
    }

    fn counts(&self) -> [bool; 2] {
        [self.taken > HEADER_BYTES, self.begun > MOST_BEGUN]
    }

    /// The place of the first wrong header byte.
    fn wrong(&self) -> Option<usize> {
        let awaited = HEADER.iter().skip(self.taken);
        let wrong = awaited.zip(&self.feed.piece).position(|(right, byte)| right != byte);
        wrong.map(|at| self.taken + at)
    }

    fn is_short(&self) -> bool {
        self.feed.last && self.taken + self.header < HEADER_BYTES
    }

    fn lacks_room(&self) -> bool {
        self.feed.buffer.len() < 8 * self.to_run
    }

    fn is_no_journal(&self) -> bool {
        self.counts() != [false; 2] || self.wrong().is_some() || self.is_short()
    }

    fn not_valid(&self) -> Vec<Met> {
        let state = State::from_bytes(&self.feed.machine);
        let mut met: Vec<Met> = broken_alone(&state).map(Met::Rule).into_iter().collect();
        met.extend(self.is_no_journal().then_some(Met::Order(1, 13)));
        met.extend((!self.is_no_journal() && self.lacks_room()).then_some(Met::Order(1, 15)));
        met
    }

    /// The first reason; where counts are right, it may be the second alone.
    fn no_journal(&self) -> Vec<Met> {
        let mut met = Vec::new();
        match (self.counts(), self.wrong(), self.is_short()) {
            ([true, true], ..) => met.push(Met::Count(2)),
            ([true, false], ..) => met.push(Met::Count(0)),
            ([false, true], None, false) => met.push(Met::Count(1)),
            ([false, true], ..) => {}
            (_, Some(at), _) => met.push(Met::Wrong(at, self.taken)),
            (_, None, true) => {
                met.push(Met::Short(self.taken + self.header, self.header > 0));
            }
            // a refusal without a reason is seen as a difference
            (_, None, false) => {}
        }
        met.extend((self.feed.kept[0] == 255).then_some(Met::Count(3)));
        met.extend(
            (self.counts() == [false; 2] && self.lacks_room()).then_some(Met::Order(13, 15)),
        );
        met
    }

    fn no_room(&self) -> Vec<Met> {
        let room = self.feed.buffer.len();
        let mut met = vec![Met::Room(match 8 * self.to_run - room.min(8 * self.to_run) {
            _ if room == 0 => 0,
            1 => 1,
            _ => 2,
        })];
        met.extend((self.to_run < self.whole).then_some(Met::Room(3)));
        met.extend((self.begun > 0).then_some(Met::Room(4)));
        met
    }

    fn done(&self, given: &Given) -> Vec<Met> {
        let mut met = vec![Met::Header(self.taken), Met::Kept(given.kept[1].into())];
        met.push(Met::Allowed(self.allowed(), self.begun > 0));
        let becomes = match (self.to_run, self.whole) {
            (0, 0) => (!self.feed.piece[self.header..].is_empty()).then_some(GROWN),
            (0, _) => Some(3),
            (run, whole) => Some((run < whole) as usize),
        };
        if self.begun > 0 {
            met.extend(becomes.map(|i| Met::Begun(self.begun, i)));
        }
        let done = self.happened(given).into_iter().enumerate();
        met.extend(done.filter(|(_, happened)| *happened).map(|(i, _)| Met::Done(i)));
        met
    }

    fn allowed(&self) -> usize {
        match (self.feed.allowance, self.feed.allowed()) {
            (ALL, _) => 5,
            (0, _) => (self.whole > 0) as usize,
            (_, records) if records < self.whole => 2,
            (_, records) => 3 + (records > self.whole) as usize,
        }
    }

    fn happened(&self, given: &Given) -> [bool; DONE.len()] {
        let Feed { machine, kept, piece, allowance, last, buffer } = self.feed;
        let (room, left) = (buffer.len(), self.to_run < self.whole);
        let ends = self.taken + self.header == HEADER_BYTES;
        let behind = kept.get(2 + self.begun..).unwrap_or(&[]);
        [
            *allowance == 0 && self.header > 0,
            self.header > 0 && left,
            self.header > 0 && ends && self.to_run > 0,
            !ends && self.begun > 0,
            self.begun == 0 && self.whole == 0 && self.bytes > 0,
            piece.is_empty(),
            *last && given.kept[1] > 0 && !left,
            *last && left,
            self.to_run > 0 && room == 8 * self.to_run,
            room < 8 * self.whole,
            room > 8 * self.to_run,
            room == 0 && self.to_run == 0,
            behind.iter().any(|byte| *byte != 0),
            self.to_run > MOST_RECORDS,
            given.answers().any(|answer| answer[0] == 0),
            given.answers().any(|answer| answer[0] != 0),
            *machine == fresh().to_bytes(),
            *machine == fresh_with(Policy::WriteThrough).to_bytes(),
            machine[POLICY] == Policy::WriteThrough.byte(),
        ]
    }
}

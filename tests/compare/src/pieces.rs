//! Calls of feed and begin, each by itself: what is kept, piece, allowance, end of the input and buffer in every way.

use second::journal::MOST_RECORDS;
use second::rng::Rng;
use second::{damage, fresh_with, Kept, Policy, State, HEADER, KEPT};

use crate::feeds::{Feed, ALL};
use crate::images;
use crate::journals::journal;
use crate::task::{Item, Task};

const ALLOWANCES: [u16; 8] = [0, 1, 2, 3, 7, 300, ALL - 1, ALL];

/// Other values of a header byte, by what is done to it.
const CHANGES: [u8; 6] = [1, 2, 0x20, 0x80, 0xFF, 0x31];

/// Lengths of what follows the header, around one record, two and a few.
const RESTS: [usize; 14] = [0, 1, 2, 6, 7, 8, 9, 13, 15, 16, 17, 24, 25, 31];

/// So many header bytes, and a begun record.
pub fn kept(header: usize, begun: &[u8]) -> Kept {
    let mut kept = [0; KEPT];
    kept[..2].copy_from_slice(&[header as u8, begun.len() as u8]);
    kept[2..2 + begun.len()].copy_from_slice(begun);
    kept
}

/// All of them.
pub fn calls() -> Vec<Item> {
    let mut plan = Plan::new();
    plan.headers();
    plan.values();
    plan.short();
    plan.again();
    plan.at_hand();
    plan.counts();
    plan.behind();
    plan.not_valid(10, 60);
    plan.long();
    plan.any(4000);
    plan.begins(40);
    plan.items
}

/// A few of each number.
pub fn few() -> Vec<Item> {
    let mut plan = Plan::new();
    let body = plan.body(20);
    let begun = kept(8, &[0, 0, 0]);
    let calls = [
        Call { kept: begun, piece: body.clone(), allowance: 2, last: false, room: Room::Exact },
        Call { kept: begun, piece: body, allowance: ALL, last: true, room: Room::Short },
        Call {
            kept: [0; KEPT],
            piece: HEADER[..5].to_vec(),
            allowance: 0,
            last: false,
            room: Room::More(3),
        },
        Call {
            kept: kept(5, &[1]),
            piece: HEADER[..3].to_vec(),
            allowance: 1,
            last: false,
            room: Room::More(9),
        },
    ];
    calls.into_iter().enumerate().for_each(|(i, call)| plan.put("few", i, call));
    plan.not_valid(1, 1);
    plan.begins(1);
    plan.items
}

/// How large an answer buffer is.
#[derive(Clone, Copy)]
enum Room {
    None,
    /// For the records to be run.
    Exact,
    /// One byte less.
    Short,
    /// Half of it.
    Half,
    /// So many bytes more.
    More(usize),
}

/// A call on some machine.
struct Call {
    kept: Kept,
    piece: Vec<u8>,
    allowance: u16,
    last: bool,
    room: Room,
}

struct Plan {
    valid: Vec<State>,
    records: Vec<u8>,
    rng: Rng,
    items: Vec<Item>,
}

impl Plan {
    fn new() -> Plan {
        let mut valid = images::along();
        valid.extend((0..6).flat_map(|_| Policy::BOTH.map(fresh_with)));
        let records = ["near", "crowd", "noise"].map(|name| journal(name, 2)[8..].to_vec());
        let rng = Rng::new(0x0070_6965_6365);
        Plan { valid, records: records.concat(), rng, items: Vec::new() }
    }

    fn noise(&mut self, length: usize) -> Vec<u8> {
        (0..length).map(|_| self.rng.byte()).collect()
    }

    fn machine(&mut self) -> Vec<u8> {
        self.valid[self.rng.below(self.valid.len())].to_bytes()
    }

    fn allowance(&mut self) -> u16 {
        ALLOWANCES[self.rng.below(ALLOWANCES.len())]
    }

    fn room(&mut self) -> Room {
        let more = self.rng.below(30);
        [Room::None, Room::Exact, Room::Exact, Room::Short, Room::Half, Room::More(more)]
            [self.rng.below(6)]
    }

    /// With some allowance and some buffer.
    fn call(&mut self, kept: Kept, piece: &[u8], last: bool) -> Call {
        let (allowance, room) = (self.allowance(), self.room());
        Call { kept, piece: piece.to_vec(), allowance, last, room }
    }

    /// So many bytes of records, from a record on or from inside one.
    fn body(&mut self, length: usize) -> Vec<u8> {
        let from = self.rng.below(self.records.len() - length);
        let from = if self.rng.percent(80) { from / 8 * 8 } else { from };
        self.records[from..from + length].to_vec()
    }

    fn put(&mut self, profile: &'static str, seed: usize, call: Call) {
        let machine = self.machine();
        self.put_on(machine, profile, seed, call);
    }

    fn put_on(&mut self, machine: Vec<u8>, profile: &'static str, seed: usize, call: Call) {
        let Call { kept, piece, allowance, last, room } = call;
        let mut feed = Feed { machine, kept, piece, allowance, last, buffer: Vec::new() };
        feed.buffer = self.buffer(&feed, room);
        self.items.push(Item { profile, seed: seed as u64, task: Task::Feed(feed) });
    }

    /// With noise in it.
    fn buffer(&mut self, feed: &Feed, room: Room) -> Vec<u8> {
        let header = HEADER.len().saturating_sub(feed.kept[0].into()).min(feed.piece.len());
        let whole = (feed.kept[1] as usize + feed.piece.len() - header) / 8;
        let exact = 8 * whole.min(feed.allowed());
        self.noise(match room {
            Room::None => 0,
            Room::Exact => exact,
            Room::Short => exact.saturating_sub(1),
            Room::Half => exact / 2,
            Room::More(more) => exact + more,
        })
    }

    /// Each header byte wrong, after each number of bytes taken before: the last of its piece, with the
    /// rest of the header behind it, or with records, and after a begun record.
    fn headers(&mut self) {
        for place in 0..HEADER.len() {
            for before in 0..=place {
                for form in 0..8 {
                    let mut header = HEADER;
                    header[place] ^= CHANGES[(place + before + form) % CHANGES.len()];
                    let rest = self.body([0, 0, 5, 30][form / 2]);
                    let piece = [&header[before..], &rest].concat();
                    let length = if form < 2 { place + 1 - before } else { piece.len() };
                    let begun = self.noise(if form % 2 == 0 { 0 } else { form });
                    let last = self.rng.percent(50);
                    let call = self.call(kept(before, &begun), &piece[..length], last);
                    self.put("wrong", place, call);
                }
            }
        }
    }

    /// Each header byte with every other value, first of its piece or behind right ones.
    fn values(&mut self) {
        for (place, right) in HEADER.into_iter().enumerate() {
            for byte in (0..=255).filter(|byte| *byte != right) {
                let mut header = HEADER;
                header[place] = byte;
                let before = byte as usize % (place + 1);
                let piece = [&header[before..], &self.body(byte as usize % 20)].concat();
                let call = self.call(kept(before, &[]), &piece, byte % 3 == 0);
                self.put("values", place, call);
            }
        }
    }

    /// A header once more, which is then a record.
    fn again(&mut self) {
        for begun in 0..8 {
            for more in [0, 3, 8] {
                let piece = [&HEADER, &self.body(more)[..]].concat();
                let call = self.call(kept(8, &HEADER[..begun]), &piece, more == 3);
                self.put("again", begun, call);
            }
        }
    }

    /// Pieces that end in the header or just behind it, at the end of the input and before it.
    fn short(&mut self) {
        for before in 0..=HEADER.len() {
            for end in before..=HEADER.len() {
                for form in 0..4 {
                    let begun = self.noise(if form < 2 { 0 } else { 1 + (before + end) % 7 });
                    let (kept, last) = (kept(before, &begun), form % 2 == 0);
                    let call = self.call(kept, &HEADER[before..end], last);
                    self.put("short", end, call);
                }
            }
        }
    }

    /// Every begun record with every allowance beside lengths around whole records, after a whole header,
    /// with all of it or with some of it.
    fn at_hand(&mut self) {
        let small = [0, 1, 2, 3, ALL];
        for begun in 0..8 {
            for (i, length) in RESTS.into_iter().enumerate() {
                for (k, allowance) in small.into_iter().enumerate() {
                    let before = [8, 8, 8, 0, 8, 5, 7][(begun + i + k) % 7];
                    let bytes = self.body(begun + length);
                    let piece = [&HEADER[before..], &bytes[begun..]].concat();
                    let kept = kept(before, &bytes[..begun]);
                    let last = self.rng.percent(40);
                    let other = [Room::Short, Room::Half, Room::None][(i + k) % 3];
                    let more = Room::More(1 + self.rng.below(17));
                    let exact = if self.rng.percent(50) { Room::Exact } else { more };
                    for room in [exact, other] {
                        let piece = piece.clone();
                        let call = Call { kept, piece, allowance, last, room };
                        self.put("at hand", begun, call);
                    }
                }
            }
        }
    }

    /// Each count out of its range alone, both, and nine bytes of noise; the piece is one that goes on.
    fn counts(&mut self) {
        for count in 0..=255 {
            let header = [0, 3, 8][count % 3];
            let mut damaged = kept(header, &[]);
            damaged[1] = count as u8;
            let begun = self.noise(count % 8);
            let both = [count as u8, 255 - count as u8, 1, 2, 3, 4, 5, 6, 7];
            let noise = std::array::from_fn(|_| self.rng.byte());
            for kept in [kept(count, &begun), damaged, both, noise] {
                let taken = (kept[0] as usize).min(HEADER.len());
                let rest = RESTS[self.rng.below(RESTS.len())];
                let piece = [&HEADER[taken..], &self.body(rest)].concat();
                let call = self.call(kept, &piece, count % 5 == 0);
                self.put("counts", count, call);
            }
        }
    }

    /// Something behind the bytes of the begun record.
    fn behind(&mut self) {
        for begun in 0..8 {
            for length in RESTS {
                let mut kept: Kept = std::array::from_fn(|_| 1 + self.rng.below(255) as u8);
                kept[..2].copy_from_slice(&[8, begun]);
                let piece = self.body(length);
                let call = self.call(kept, &piece, length % 2 == 0);
                self.put("behind", length, call);
            }
        }
    }

    /// Machines damaged by aim at each rule and at random, with all sorts of calls.
    fn not_valid(&mut self, seeds: u64, each: usize) {
        for seed in 0..seeds {
            for state in damage::states(seed + 950, each) {
                let call = self.any_call();
                self.put_on(state.to_bytes(), "not valid", seed as usize, call);
            }
        }
    }

    /// More records than a whole journal may have.
    fn long(&mut self) {
        for (i, records) in [MOST_RECORDS, MOST_RECORDS + 1, 6000, 8190].into_iter().enumerate() {
            let records: Vec<u8> = self.records.iter().copied().cycle().take(8 * records).collect();
            let piece = [&HEADER, &records[..]].concat();
            let most = MOST_RECORDS as u16;
            for (allowance, room) in
                [(ALL, Room::Exact), (most, Room::Exact), (most + 1, Room::Short)]
            {
                let piece = piece.clone();
                self.put("long", i, Call { kept: [0; KEPT], piece, allowance, last: true, room });
            }
        }
    }

    /// Anything, mostly right.
    fn any_call(&mut self) -> Call {
        let header = if self.rng.percent(50) { 8 } else { self.rng.below(9) };
        let begun = self.rng.below(8);
        let length = [0, 5, 12, 60, 400][self.rng.below(5)];
        let length = self.rng.below(length + 1);
        let bytes = self.body(begun + length);
        let mut kept = kept(header, &bytes[..begun]);
        let mut piece = [&HEADER[header..], &bytes[begun..]].concat();
        if self.rng.percent(10) {
            kept[self.rng.below(KEPT)] = self.rng.byte();
        }
        if self.rng.percent(10) && !piece.is_empty() {
            let at = self.rng.below(piece.len().min(10));
            piece[at] = self.rng.byte();
        }
        if self.rng.percent(20) {
            piece.truncate(self.rng.below(10));
        }
        let last = self.rng.percent(30);
        self.call(kept, &piece, last)
    }

    fn any(&mut self, count: usize) {
        for seed in 0..count {
            let call = self.any_call();
            self.put("any", seed, call);
        }
    }

    /// Over zeros, over what 13 left, over noise.
    fn begins(&mut self, count: usize) {
        for seed in 0..count as u64 {
            let mut kept: Kept = std::array::from_fn(|_| self.rng.byte());
            match seed % 4 {
                1 => kept = [0; KEPT],
                2 => kept[0] = 255,
                3 => kept[self.rng.below(KEPT)] = 0,
                _ => {}
            }
            self.items.push(Item { profile: "begin", seed, task: Task::Begin { kept } });
        }
    }
}

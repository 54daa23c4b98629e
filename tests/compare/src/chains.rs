//! Whole journals in pieces, each call on what ours gave before: cut once at every place, cut anyhow, refused and begun again.
//! Each call gives what the second program gives, and all together are one run.

use second::journal::MOST_RECORDS;
use second::rng::Rng;
use second::{fresh_with, run_journal, Kept, Policy, State, HEADER, KEPT};

use crate::feeds::{Feed, Given, ALL};
use crate::journals::journal;
use crate::piece_met::Way;
use crate::piece_tally::PieceTally;
use crate::pieces::kept;
use crate::programs::Ask;
use crate::task::Task;
use crate::{difference, images};

/// Profiles, seeds and lengths of the journals that are cut at every place.
const CUT: [(&str, u64, usize); 4] =
    [("near", 3, 109), ("blind", 1, 83), ("declined", 2, 96), ("noise", 2, 69)];

const PROFILES: [&str; 6] = ["near", "crowd", "blind", "noise", "declined", "deep"];

/// More than any chain needs: one that does not go on is an error.
const MOST_CALLS: usize = 5000;

const NOISE: Kept = [0xD7; KEPT];

/// How a journal is offered.
#[derive(Clone, Copy)]
enum Offer {
    /// Up to the cut and then the rest, so many records at a time.
    Cut(usize, u16),
    /// One byte in each call.
    Bytes,
    /// Pieces up to so many bytes, allowances and buffers drawn anew for each call.
    Any(u64, usize),
}

struct Plan {
    name: String,
    machine: Vec<u8>,
    journal: Vec<u8>,
    offer: Offer,
    /// Pieces that come first and end in a refusal with 13, after which all is begun again.
    refused: Vec<Vec<u8>>,
}

/// What ours gave over a chain, and what one run gives.
pub struct Chain {
    /// The bytes that were taken and the journal; the answers; the machine and what is kept at the end.
    parts: [[Vec<u8>; 2]; 4],
}

const WRONG: [&str; 4] = [
    "the bytes taken are not the journal",
    "the answers are not those of one run",
    "the state is not that of one run",
    "what is kept is not what one run leaves over",
];

impl Chain {
    pub fn wrong(&self) -> Option<&'static str> {
        let wrong = self.parts.iter().position(|[ours, whole]| ours != whole);
        wrong.map(|i| WRONG[i])
    }

    /// Every byte that counts.
    pub fn byte(&mut self, at: usize) -> Option<&mut u8> {
        self.parts.iter_mut().flatten().flatten().nth(at)
    }
}

/// A host as ours left it, and who is asked.
struct Caller<'a, 'b> {
    ask: &'a mut Ask<'b>,
    tally: &'a mut PieceTally,
    name: String,
    machine: Vec<u8>,
    kept: Kept,
    taken: Vec<u8>,
    answers: Vec<u8>,
    /// The call before: its number, how much of the piece was left, and its buffer.
    before: (u8, usize, usize),
}

impl Caller<'_, '_> {
    fn ask(&mut self, task: &Task) -> Result<Vec<u8>, String> {
        let ours = (self.ask)(task)?;
        match difference::of_results(task, &ours, &task.expected()) {
            Some(text) => Err(format!("difference: {}: {text}", self.name)),
            None => Ok(ours),
        }
    }

    fn begin(&mut self, kept: Kept) -> Result<(), String> {
        let ours = self.ask(&Task::Begin { kept })?;
        self.tally.note_begin(&kept);
        self.kept.copy_from_slice(&ours);
        Ok(())
    }

    fn feed(&mut self, piece: &[u8], call: Call) -> Result<u8, String> {
        let Call { allowance, last, room } = call;
        let buffer: Vec<u8> = (0..room).map(|i| (i * 59 + 91) as u8).collect();
        let (machine, kept) = (self.machine.clone(), self.kept);
        let feed = Feed { machine, kept, piece: piece.to_vec(), allowance, last, buffer };
        let task = Task::Feed(feed);
        let ours = self.ask(&task)?;
        if let Task::Feed(feed) = &task {
            self.tally.note(feed, &ours);
        }
        let given = Given::of(&ours);
        self.note_ways(&given);
        self.before = (given.number, piece.len() - given.bytes, room);
        self.taken.extend(&piece[..given.bytes]);
        self.answers.extend(given.answers().flatten());
        self.machine = given.machine.to_vec();
        self.kept = given.kept;
        Ok(given.number)
    }

    fn note_offer(&mut self, offer: Offer) {
        match offer {
            Offer::Cut(1..8, _) => self.tally.note_way(Way::CutInHeader),
            Offer::Cut(cut, _) if cut % 8 > 0 => self.tally.note_way(Way::CutInRecord),
            Offer::Cut(cut, _) if cut > 8 => self.tally.note_way(Way::CutBetween),
            Offer::Bytes => self.tally.note_way(Way::ByteByByte),
            _ => {}
        }
        if self.answers.len() / 8 > MOST_RECORDS {
            self.tally.note_way(Way::MoreThanAWhole);
        }
    }

    fn note_ways(&mut self, given: &Given) {
        let (number, left, room) = self.before;
        let ways = [
            (number == 0 && left > 0 && given.bytes > 0, Way::OfferedAgain),
            (number == 15 && given.records > 0 && given.buffer.len() > room, Way::RoomAgain),
            (number == 13 && given.number == 13, Way::RefusedAgain),
        ];
        for (_, way) in ways.into_iter().filter(|(met, _)| *met) {
            self.tally.note_way(way);
        }
    }

    /// Offers a journal until all of it is taken, and its end told.
    fn offer(&mut self, journal: &[u8], offer: Offer) -> Result<(), String> {
        match offer {
            Offer::Cut(cut, allowance) => {
                self.offer_to(&journal[..cut], allowance, false)?;
                self.offer_to(journal, allowance, true)
            }
            Offer::Bytes => {
                let call = Call { allowance: 1, last: false, room: 8 };
                journal.chunks(1).try_for_each(|byte| self.feed(byte, call).map(|_| ()))?;
                self.offer_to(journal, 0, true)
            }
            Offer::Any(seed, most) => self.offer_any(journal, Rng::new(seed), most),
        }
    }

    /// What is not taken yet, again and again; once also where nothing is left.
    fn offer_to(&mut self, journal: &[u8], allowance: u16, last: bool) -> Result<(), String> {
        for _ in 0..MOST_CALLS {
            let rest = journal.get(self.taken.len()..).ok_or("more was taken than offered")?;
            let room = 8 * (rest.len() / 8 + 1).min(allowance.into());
            self.feed(rest, Call { allowance, last, room })?;
            if self.taken.len() == journal.len() {
                return Ok(());
            }
        }
        Err(self.no_end())
    }

    fn offer_any(&mut self, journal: &[u8], mut rng: Rng, most: usize) -> Result<(), String> {
        for _ in 0..MOST_CALLS {
            let rest = &journal[self.taken.len()..];
            let piece = &rest[..rng.below(most + 1).min(rest.len())];
            let last = piece.len() == rest.len();
            let number = self.feed(piece, any_call(&mut rng, piece.len(), last))?;
            if last && number == 0 && self.taken.len() == journal.len() {
                return Ok(());
            }
        }
        Err(self.no_end())
    }

    fn no_end(&self) -> String {
        format!("{}: no end after {MOST_CALLS} calls", self.name)
    }
}

#[derive(Clone, Copy)]
struct Call {
    allowance: u16,
    last: bool,
    room: usize,
}

/// Now and then with a buffer that may be too short.
fn any_call(rng: &mut Rng, length: usize, last: bool) -> Call {
    let allowance = [0, 1, 2, 3, 20, 900, ALL][rng.below(7)];
    let enough = 8 * (length / 8 + 1).min(allowance.into());
    let room = if rng.percent(15) { rng.below(enough + 1) } else { enough + rng.below(4) };
    Call { allowance, last, room }
}

/// Bytes taken, answers, machine and bytes kept of one run, in parts that are not too long for one.
fn one_run(machine: &[u8], journal: &[u8]) -> [Vec<u8>; 4] {
    let mut state = State::from_bytes(machine);
    let body = &journal[HEADER.len()..];
    let mut answers = vec![0; body.len() / 8 * 8];
    let rooms = answers.chunks_mut(8 * MOST_RECORDS);
    for (part, answers) in body.chunks(8 * MOST_RECORDS).zip(rooms) {
        run_journal(&mut state, &[&HEADER, part].concat(), answers).expect("it may be run");
    }
    let kept = kept(HEADER.len(), &body[answers.len()..]);
    [journal.to_vec(), answers, state.to_bytes(), kept.to_vec()]
}

fn chain(ask: &mut Ask, tally: &mut PieceTally, plan: Plan) -> Result<Chain, String> {
    let Plan { name, machine, journal, offer, refused } = plan;
    let whole = one_run(&machine, &journal);
    let (taken, answers, before) = (Vec::new(), Vec::new(), (0, 0, 0));
    let mut caller = Caller { ask, tally, name, machine, kept: NOISE, taken, answers, before };
    caller.begin(NOISE)?;
    for (i, piece) in refused.iter().enumerate() {
        let last = i + 1 == refused.len();
        caller.feed(piece, Call { allowance: ALL, last, room: 64 })?;
    }
    if caller.before.0 == 13 {
        caller.begin(caller.kept)?;
        caller.taken.clear();
        caller.tally.note_way(Way::BegunAgain);
    }
    caller.offer(&journal, offer)?;
    caller.note_offer(offer);
    let Caller { machine, kept, taken, answers, .. } = caller;
    let mut parts = [taken, answers, machine, kept.to_vec()].into_iter().zip(whole);
    let pair = |_| parts.next().map(|(ours, whole)| [ours, whole]).unwrap_or_default();
    Ok(Chain { parts: std::array::from_fn(pair) })
}

/// The fresh machine of either policy, or one of a run.
fn machine(along: &[State], seed: usize) -> Vec<u8> {
    match seed % 4 {
        0 => fresh_with(Policy::WriteBack).to_bytes(),
        2 => fresh_with(Policy::WriteThrough).to_bytes(),
        _ => along[seed % along.len()].to_bytes(),
    }
}

/// Every cut of a few journals, once with all allowed and once with a few records at a time; and byte by byte.
fn cuts(along: &[State]) -> Vec<Plan> {
    let mut plans = Vec::new();
    for (i, (profile, seed, length)) in CUT.into_iter().enumerate() {
        let journal = journal(profile, seed)[..length].to_vec();
        let (machine, refused) = (machine(along, i), Vec::new());
        let plan = |name, offer| Plan {
            name,
            machine: machine.clone(),
            journal: journal.clone(),
            offer,
            refused: Vec::clone(&refused),
        };
        plans.push(plan(format!("{profile} {seed}, byte by byte"), Offer::Bytes));
        for cut in 0..=length {
            for allowance in [ALL, 1 + cut as u16 % 3] {
                let name = format!("{profile} {seed}, cut at {cut}, allowance {allowance}");
                plans.push(plan(name, Offer::Cut(cut, allowance)));
            }
        }
    }
    plans
}

/// A journal cut anyhow, with up to seven bytes left over.
fn any(along: &[State], seed: u64) -> Plan {
    let profile = PROFILES[seed as usize % PROFILES.len()];
    let mut journal = journal(profile, seed / 2 % 12);
    journal.truncate(8 + 1 + seed as usize * 131 % 3000);
    let most = [5, 20, 90, 700][seed as usize % 4];
    journal.truncate(30 * most + seed as usize % 8);
    let name = format!("{profile} {}, any pieces, seed {seed}", seed / 2 % 12);
    let offer = Offer::Any(seed, most);
    Plan { name, machine: machine(along, seed as usize), journal, offer, refused: Vec::new() }
}

/// First a wrong header byte or a header that stays short, with more pieces behind it.
fn refused(along: &[State], seed: usize) -> Plan {
    let (place, cut) = (seed % HEADER.len(), seed / 3 % (1 + seed % HEADER.len()));
    let mut wrong = HEADER;
    wrong[place] ^= 1 << (seed % 8);
    let refused = match seed % 4 {
        0 => vec![HEADER[..place].to_vec(), Vec::new()],
        1 => vec![wrong[..cut].to_vec(), wrong[cut..].to_vec(), HEADER[cut..].to_vec()],
        2 => vec![wrong.to_vec(), HEADER.to_vec(), vec![0; 20], Vec::new()],
        _ => vec![wrong[..=place].to_vec(), HEADER[place..].to_vec(), HEADER.to_vec()],
    };
    Plan { refused, ..any(along, seed as u64 + 200) }
}

/// More records in all than a whole journal may have.
fn long() -> Plan {
    let journal = [journal("deep", 0), journal("crowd", 0)[8..].to_vec()].concat();
    let (name, offer) = ("a long journal".into(), Offer::Any(1, 9000));
    let machine = fresh_with(Policy::WriteThrough).to_bytes();
    Plan { name, machine, journal, offer, refused: Vec::new() }
}

/// How many there were; each of them is one run.
pub fn all(ask: &mut Ask, tally: &mut PieceTally) -> Result<usize, String> {
    let along = images::along();
    let mut plans = cuts(&along);
    plans.extend((0..72).map(|seed| any(&along, seed)));
    plans.extend((0..32).map(|seed| refused(&along, seed)));
    plans.push(long());
    let count = plans.len();
    for plan in plans {
        let name = plan.name.clone();
        if let Some(why) = chain(ask, tally, plan)?.wrong() {
            return Err(format!("difference: {name}: {why}"));
        }
    }
    Ok(count)
}

/// One of them.
pub fn one(ask: &mut Ask) -> Result<Chain, String> {
    chain(ask, &mut PieceTally::default(), refused(&images::along(), 5))
}

#[cfg(test)]
mod tests {
    use super::*;

    /// With the second program in place of ours.
    #[test]
    fn chains_of_the_second_program_are_one_run() {
        let mut tally = PieceTally::default();
        let mut calls = 0;
        let count = all(
            &mut |task| {
                calls += 1;
                Ok(task.expected())
            },
            &mut tally,
        );
        println!("{count:?} chains, {calls} calls");
        assert!(count.is_ok());
        assert!(!tally.counts.missing().iter().any(|met| met.contains("calls: ")));
    }
}

//! The engines do what the proved machine does, under each policy; what is compared shows where one does not; and the cases are what they are called.

use ration::{Host, Refusal, Report, WritePolicy, ANSWER, HEADER, RECORD, SIZE};
use second::gen;
use speed::cases::{self, RECORDS};
use speed::engine::{Engine, Search, TrailingZeros};
use speed::machines::{fresh_with, Machine, Named};
use speed::same::run_all;

/// The byte of the last physical address of the last guest: docs/STATE.md, the end of field 4.
const PINNED: usize = 4352 - 1;

/// On fresh machines of each policy.
fn under_each(run: impl Fn(&mut [Named]) -> Result<(), String>) -> Result<(), String> {
    WritePolicy::ALL.into_iter().try_for_each(|policy| {
        run(&mut fresh_with(policy)).map_err(|what| format!("{policy}: {what}"))
    })
}

fn same(journal: &[u8], room: usize) -> Result<(), String> {
    under_each(|machines| run_all(machines, journal, room))
}

/// The journal's records as journals of so many each, one after another.
fn in_pieces(journal: &[u8], records: usize) -> Result<(), String> {
    let (header, body) = journal.split_at(HEADER);
    under_each(|machines| {
        body.chunks(RECORD * records).try_for_each(|part| {
            let piece = [header, part].concat();
            run_all(machines, &piece, piece.len())
        })
    })
}

#[test]
fn generated_journals() {
    for profile in gen::PROFILES {
        for seed in 0..96 {
            let (count, piece) = [(RECORDS, RECORDS), (900, 30), (600, 1)][seed as usize % 3];
            let journal = gen::journal(seed, count, profile).unwrap();
            in_pieces(&journal, piece).unwrap_or_else(|what| panic!("{profile} {seed}: {what}"));
        }
    }
}

#[test]
fn journals_that_are_refused_or_cut() {
    let whole = gen::journal(1, RECORDS + 1, "near").unwrap();
    let lengths = (0..40).chain(HEADER + RECORD * RECORDS - 9..=whole.len());
    for length in lengths {
        let records = length.saturating_sub(HEADER) / RECORD;
        for room in
            [0, ANSWER * records, (ANSWER * records).saturating_sub(1), ANSWER * records + 9]
        {
            same(&whole[..length], room).unwrap();
        }
    }
    for place in 0..HEADER {
        let mut journal = whole[..100].to_vec();
        journal[place] ^= 1;
        same(&journal, 100).unwrap();
    }
}

/// Takes the highest free page. Every answer is as it should be, for no answer says which page was taken.
struct Highest;

impl Search for Highest {
    fn lowest(free: u64) -> Option<usize> {
        free.checked_ilog2().map(|page| page as usize)
    }
}

/// An engine with one byte of its answers, or its report, spoiled.
struct Spoiled {
    engine: Engine<TrailingZeros>,
    place: Option<usize>,
}

impl Machine for Spoiled {
    fn run(&mut self, journal: &[u8], answers: &mut [u8]) -> Result<Report, Refusal> {
        let report = self.engine.run(journal, answers)?;
        match self.place {
            Some(place) => answers[place] ^= 1,
            None => return Ok(Report { accepted: report.accepted - 1, ..report }),
        }
        Ok(report)
    }

    fn bytes(&self) -> [u8; SIZE] {
        self.engine.bytes()
    }
}

fn seen(wrong: impl Machine + 'static) -> String {
    let mut machines: Vec<Named> =
        vec![("right", Box::new(Host::fresh())), ("wrong", Box::new(wrong))];
    let journal = &cases::all()[0].timed;
    run_all(&mut machines, journal[..HEADER + 2 * RECORD].as_ref(), 2 * ANSWER + 1).unwrap_err()
}

#[test]
fn what_differs_is_seen() {
    let [back, through] = WritePolicy::ALL;
    assert_eq!(seen(Engine::<Highest>::fresh_with(back)), "wrong: not the first machine's state");
    assert_eq!(seen(Host::fresh_with(through)), "wrong: not the first machine's state");
    let spoiled = |place| seen(Spoiled { engine: Engine::fresh_with(back), place });
    assert_eq!(spoiled(None), "wrong: not the first machine's report");
    for place in 0..=2 * ANSWER {
        assert_eq!(spoiled(Some(place)), "wrong: not the first machine's answers");
    }
}

#[test]
fn cases_are_what_they_are_called() {
    // in numbers, as docs/HOST.md has them: free pages at the start, records accepted, and the page that is pinned, plus one
    let expected = [(56, 4096, 9), (1, 4096, 64), (0, 3, 0), (55, 4096, 9)];
    let cases = cases::all();
    assert_eq!(cases.len(), expected.len());
    for (case, (free, accepted, lead)) in cases.iter().zip(expected) {
        let mut host = Host::fresh();
        let mut answers = vec![0; ANSWER * RECORDS];
        let report = host.run(&case.before, &mut answers).unwrap();
        assert_eq!((report.refused, host.free_pages()), (0, free), "{}", case.what);
        let start = host.clone();
        let report = host.run(&case.timed, &mut answers).unwrap();
        assert_eq!((report.taken, report.accepted), (RECORDS as u32, accepted), "{}", case.what);
        let refusals = answers.chunks_exact(ANSWER).filter(|answer| answer[0] == 11).count();
        assert_eq!(refusals as u32, report.refused, "{}", case.what);
        assert_eq!(host, start, "{}", case.what);
        // hcall and pin alone, or a write and a read
        host.run(&case.timed[..HEADER + 2 * RECORD], &mut answers).unwrap();
        assert_eq!(host.bytes()[PINNED], lead, "{}", case.what);
    }
}

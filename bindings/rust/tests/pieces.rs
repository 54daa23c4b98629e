//! Journals in pieces: however a journal is cut and read, its answers and the state are those of its run as a whole.

use std::collections::VecDeque;
use std::error::Error;
use std::io::{self, ErrorKind, Read};
use std::num::NonZeroUsize;

use ration::{
    journal, Action, Answer, Call, Fed, FeedError, Feeder, Host, Kept, Pa, PinKind, Refusal, Va,
    ANSWER, HEADER, KEPT_SIZE, RECORD, SIZE,
};

const NINE: [Action; 9] = [
    Action::Hcall(Call::Pin(Pa(1), PinKind::Data)),
    Action::Pin(Pa(1), PinKind::Data),
    Action::Chmod,
    Action::Hcall(Call::New(Va(0), Pa(1))),
    Action::New(Va(0), Pa(1)),
    Action::Chmod,
    Action::Write(Va(0), 300),
    Action::Read(Va(0)),
    Action::Read(Va(1)),
];

/// The journal of the nine records, and five bytes left over.
fn nine() -> Vec<u8> {
    [&journal(&NINE)[..], b"later"].concat()
}

/// The answers of the first so many records, and the host after them.
fn first(records: usize) -> (Vec<Answer>, Host) {
    let mut host = Host::fresh();
    let answers = NINE[..records].iter().map(|action| host.act(*action)).collect();
    (answers, host)
}

/// Gives one of these parts, or an error, at each read, and then the end.
struct Parts(VecDeque<Result<Vec<u8>, ErrorKind>>);

impl Parts {
    fn of<'a>(parts: impl IntoIterator<Item = &'a [u8]>) -> Parts {
        // a read of no bytes would be the end
        let parts = parts.into_iter().filter(|part| !part.is_empty());
        Parts(parts.map(|part| Ok(part.to_vec())).collect())
    }

    /// The error comes first.
    fn after(mut self, error: ErrorKind) -> Parts {
        self.0.push_front(Err(error));
        self
    }

    fn then(mut self, next: Parts) -> Parts {
        self.0.extend(next.0);
        self
    }
}

impl Read for Parts {
    fn read(&mut self, buffer: &mut [u8]) -> io::Result<usize> {
        let part = self.0.pop_front().unwrap_or(Ok(vec![]))?;
        buffer[..part.len()].copy_from_slice(&part);
        Ok(part.len())
    }
}

fn refusal(answer: Option<Result<Answer, FeedError>>) -> Option<Refusal> {
    match answer {
        Some(Err(FeedError::Refused(refusal))) => Some(refusal),
        _ => None,
    }
}

/// All is read, and comes to what the nine records come to.
fn ends_as_the_nine(input: impl Read, case: &str) {
    let mut host = Host::fresh();
    let mut feeder = Feeder::new(&mut host, input);
    let answers: Result<Vec<Answer>, FeedError> = (&mut feeder).collect();
    assert!(feeder.next().is_none(), "{case}");
    assert_eq!(feeder.left_over(), 5, "{case}");
    assert_eq!((answers.unwrap(), host), first(NINE.len()), "{case}");
}

#[test]
fn every_cut() {
    let bytes = nine();
    for (i, j) in (0..=bytes.len()).flat_map(|j| (0..=j).map(move |i| (i, j))) {
        let parts = Parts::of([&bytes[..i], &bytes[i..j], &bytes[j..]]);
        ends_as_the_nine(parts, &format!("cut at {i} and {j}"));
    }
}

#[test]
fn reads_of_any_length() {
    for length in 1..=nine().len() {
        ends_as_the_nine(Parts::of(nine().chunks(length)), &format!("reads of {length}"));
    }
    ends_as_the_nine(&nine()[..], "a slice");
}

#[test]
fn an_interrupted_read_is_tried_again() {
    let slow = nine().chunks(1).fold(Parts::of([]), |parts, byte| {
        parts.then(Parts::of([byte]).after(ErrorKind::Interrupted).after(ErrorKind::Interrupted))
    });
    ends_as_the_nine(slow, "interrupted before each byte");
}

/// What was read before is answered, the error is told, and the next call reads on.
#[test]
fn a_read_that_fails() {
    let bytes = nine();
    for place in 0..=bytes.len() {
        let rest = Parts::of([&bytes[place..]]).after(ErrorKind::TimedOut);
        let mut host = Host::fresh();
        let mut feeder = Feeder::new(&mut host, Parts::of([&bytes[..place]]).then(rest));
        let records = place.saturating_sub(HEADER) / RECORD;
        let before: Vec<Answer> = feeder.by_ref().map_while(Result::ok).collect();
        assert_eq!(before, first(records).0, "{place}");
        let after: Result<Vec<Answer>, FeedError> = (&mut feeder).collect();
        assert_eq!([before, after.unwrap()].concat(), first(NINE.len()).0, "{place}");
        assert_eq!(feeder.left_over(), 5, "{place}");
        assert_eq!(host, first(NINE.len()).1, "{place}");
    }
}

#[test]
fn errors_in_words() {
    let mut host = Host::fresh();
    let parts = Parts::of([]).after(ErrorKind::TimedOut);
    let error = Feeder::new(&mut host, parts).next().unwrap().unwrap_err();
    assert!(matches!(&error, FeedError::Read(error) if error.kind() == ErrorKind::TimedOut));
    let said = error.source().unwrap().to_string();
    assert_eq!(error.to_string(), format!("the journal cannot be read: {said}"));
    let error = FeedError::Refused(Refusal::Header);
    assert_eq!(error.to_string(), Refusal::Header.to_string());
    assert_eq!(error.source().unwrap().to_string(), Refusal::Header.to_string());
}

/// A wrong byte is told at once, though more would arrive, and nothing is run.
#[test]
fn wrong_headers() {
    for place in 0..HEADER {
        let mut bytes = nine();
        bytes[place] ^= 1;
        let wrong = &bytes[..=place];
        for parts in [Parts::of([&bytes[..]]), Parts::of(wrong.chunks(1)), Parts::of([wrong])] {
            let mut host = Host::fresh();
            let mut feeder =
                Feeder::new(&mut host, parts.then(Parts::of([]).after(ErrorKind::TimedOut)));
            assert_eq!(refusal(feeder.next()), Some(Refusal::Header), "{place}");
            assert!(feeder.next().is_none() && feeder.next().is_none(), "{place}");
            assert!(matches!(feeder.read_header(), Err(FeedError::Refused(Refusal::Header))));
            assert_eq!(host, Host::fresh(), "{place}");
        }
    }
}

#[test]
fn short_headers() {
    for length in 0..HEADER {
        let mut host = Host::fresh();
        let mut feeder = Feeder::new(&mut host, Parts::of([&nine()[..length]]));
        assert_eq!(refusal(feeder.next()), Some(Refusal::Header), "{length}");
        assert!(feeder.next().is_none(), "{length}");
    }
    let mut host = Host::fresh();
    let mut feeder = Feeder::new(&mut host, Parts::of([&nine()[..HEADER]]));
    assert!(feeder.next().is_none() && feeder.left_over() == 0);
}

/// No record is run for the header, and nothing behind it is waited for.
#[test]
fn the_header_first() {
    let mut host = Host::fresh();
    let mut feeder = Feeder::new(&mut host, Parts::of([&nine()[..]]));
    feeder.read_header().unwrap();
    feeder.read_header().unwrap();
    let answers: Result<Vec<Answer>, FeedError> = feeder.collect();
    assert_eq!(answers.unwrap(), first(NINE.len()).0);
    let header = Parts::of(nine()[..HEADER].chunks(1));
    let mut feeder = Feeder::new(&mut host, header.then(Parts::of([]).after(ErrorKind::TimedOut)));
    feeder.read_header().unwrap();
    assert!(matches!(feeder.next(), Some(Err(FeedError::Read(_)))));
    assert_eq!(host, first(NINE.len()).1);
}

#[test]
fn a_damaged_host() {
    let mut host = Host::from_bytes([255; SIZE]);
    let mut feeder = Feeder::new(&mut host, Parts::of([&nine()[..]]));
    assert_eq!(refusal(feeder.next()), Some(Refusal::State));
    assert!(feeder.next().is_none());
    assert_eq!(host, Host::from_bytes([255; SIZE]));
}

/// A whole journal of so many is refused; here only its records are that a running guest may not do, every 1,000th.
#[test]
fn more_than_4096_records() {
    let mut actions = vec![Action::Silent; 20_000];
    actions.iter_mut().step_by(1000).for_each(|action| *action = Action::Chmod);
    let bytes = journal(&actions);
    let mut answers = vec![0; ANSWER * actions.len()];
    assert_eq!(Host::fresh().run(&bytes, &mut answers), Err(Refusal::TooManyRecords));
    let expected = actions.iter().map(|action| match action {
        Action::Chmod => Answer::Refused(Refusal::Mode),
        _ => Answer::Done(0),
    });
    for input in [Parts::of(bytes.chunks(1021)), Parts::of(bytes.chunks(4096))] {
        let mut host = Host::fresh();
        let feeder = Feeder::new(&mut host, input);
        assert!(feeder.map(Result::unwrap).eq(expected.clone()));
    }
}

/// With an allowance of 1 a record is run when its answer is asked for, and not before.
#[test]
fn who_stops_asking_stops_the_host() {
    for asked in 0..=NINE.len() {
        let mut host = Host::fresh();
        let feeder =
            Feeder::new(&mut host, Parts::of([&nine()[..]])).with_allowance(NonZeroUsize::MIN);
        let answers: Result<Vec<Answer>, FeedError> = feeder.take(asked).collect();
        assert_eq!((answers.unwrap(), host), first(asked));
    }
}

// the calls that a feeder makes

#[test]
fn what_is_kept() {
    assert_eq!(Kept::begin().bytes(), &[0; KEPT_SIZE]);
    assert_eq!(Kept::default(), Kept::begin());
    assert!(!Kept::begin().header_is_whole() && Kept::begin().begun().is_empty());
    let (mut host, mut kept) = (Host::fresh(), Kept::begin());
    assert_eq!(
        host.feed(&mut kept, &nine()[..11], 0, false, &mut []),
        Ok(Fed { records: 0, bytes: 11 })
    );
    assert_eq!(kept.bytes(), &[8, 3, 10, 1, 0, 0, 0, 0, 0]);
    assert!(kept.header_is_whole() && kept.begun() == [10, 1, 0]);
    assert_eq!(Kept::from_bytes(*kept.bytes()), kept);
    assert_eq!(Kept::from_bytes([255; KEPT_SIZE]).begun(), [255; RECORD - 1]);
}

#[test]
fn allowances() {
    let bytes = nine();
    for allowance in 0..=NINE.len() + 1 {
        let (mut host, mut kept) = (Host::fresh(), Kept::begin());
        let mut answers = [255; ANSWER * 10];
        let fed = host.feed(&mut kept, &bytes, allowance, true, &mut answers).unwrap();
        let records = allowance.min(NINE.len());
        let taken = if records < NINE.len() { HEADER + RECORD * records } else { bytes.len() };
        assert_eq!(fed, Fed { records, bytes: taken });
        let (before, after) = answers.split_at(ANSWER * records);
        let found =
            before.chunks_exact(ANSWER).map(|one| Answer::from_bytes(one.try_into().unwrap()));
        assert_eq!((found.collect(), host), first(records));
        assert!(after.iter().all(|byte| *byte == 255));
    }
}

#[test]
fn refused_calls() {
    let bytes = nine();
    let stopped = [255, 0, 0, 0, 0, 0, 0, 0, 0];
    let (begin, begun_8) = ([0; KEPT_SIZE], [8, 8, 0, 0, 0, 0, 0, 0, 0]);
    let cases = [
        (begin, &bytes[..], 9, Refusal::AnswerBuffer, begin),
        (begin, &bytes[1..], 0, Refusal::Header, stopped),
        (begin, &bytes[..7], 0, Refusal::Header, stopped),
        (stopped, &bytes[..], 0, Refusal::Header, stopped),
        ([9, 0, 0, 0, 0, 0, 0, 0, 0], &[], 0, Refusal::Header, stopped),
        (begun_8, &[], 0, Refusal::Header, [255, 8, 0, 0, 0, 0, 0, 0, 0]),
    ];
    for (before, piece, allowance, refusal, after) in cases {
        let (mut host, mut kept) = (Host::fresh(), Kept::from_bytes(before));
        let mut answers = [255; ANSWER * NINE.len() - 1];
        assert_eq!(host.feed(&mut kept, piece, allowance, true, &mut answers), Err(refusal));
        assert_eq!(kept, Kept::from_bytes(after));
        assert_eq!((answers, &host), ([255; ANSWER * NINE.len() - 1], &Host::fresh()));
        let mut damaged = Host::from_bytes([255; SIZE]);
        kept = Kept::from_bytes(before);
        assert_eq!(
            damaged.feed(&mut kept, piece, allowance, true, &mut answers),
            Err(Refusal::State)
        );
        assert_eq!(kept, Kept::from_bytes(before));
    }
}

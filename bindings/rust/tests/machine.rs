//! The names held to the machine: each kind is accepted and each refusal is given, by its name.

use std::collections::{BTreeSet, HashSet};

use ration::{
    journal, Action, Answer, Call, Guest, Host, Pa, PinKind, Refusal, Report, Va, WritePolicy,
    ANSWER, HEADER, IMAGE_SIZE, RECORD, SIZE,
};

/// A guest asks, and the host does it and lets the guest run on.
fn served(call: Call, action: Action) -> Vec<Action> {
    vec![Action::Hcall(call), action, Action::Chmod]
}

fn pinned(pa: Pa, kind: PinKind) -> Vec<Action> {
    served(Call::Pin(pa, kind), Action::Pin(pa, kind))
}

/// A guest's stealth page, at its physical address 1.
fn stealth() -> Vec<Action> {
    let page = Pa(1);
    [pinned(page, PinKind::Data), served(Call::New(Va::STEALTH, page), Action::NewSm(page))]
        .concat()
}

fn all_done(host: &mut Host, actions: &[Action]) {
    for &action in actions {
        assert_eq!(host.act(action), Answer::Done(0), "{action}");
    }
}

/// Actions that the fresh machine does, with the value that each answers.
fn script() -> Vec<(Action, u32)> {
    let (page, table, va) = (Pa(2), Pa(4), Va(3));
    let quiet = |actions: Vec<Action>| actions.into_iter().map(|action| (action, 0)).collect();
    let parts: [Vec<(Action, u32)>; 16] = [
        quiet(vec![Action::Silent]),
        quiet(pinned(page, PinKind::Data)),
        quiet(served(Call::New(va, page), Action::New(va, page))),
        vec![
            (Action::Write(va, 0x04030201), 0),
            (Action::Read(va), 0x04030201),
            (Action::RetCtrl, 0),
        ],
        vec![(Action::WriteHyper(va, 77), 0), (Action::ReadHyper(va), 77)],
        quiet(vec![Action::Switch(Guest(1)), Action::Switch(Guest(0)), Action::Chmod]),
        quiet(served(Call::Del(va), Action::Del(va))),
        quiet(served(Call::Unpin(page), Action::Unpin(page))),
        quiet(stealth()),
        quiet(vec![Action::Write(Va::STEALTH, 9)]),
        quiet(pinned(table, PinKind::Table)),
        quiet(served(Call::Lswitch(table), Action::Lswitch(table))),
        quiet(served(Call::Lswitch(Pa(0)), Action::Lswitch(Pa(0)))),
        vec![(Action::Read(Va::STEALTH), 9)],
        quiet(vec![Action::Hcall(Call::None), Action::Chmod]),
        quiet(served(Call::Unpin(Pa(0)), Action::Drop(Guest(0)))),
    ];
    parts.concat()
}

#[test]
fn every_kind_is_accepted() {
    for policy in WritePolicy::ALL {
        let mut host = Host::fresh_with(policy);
        let mut kinds = BTreeSet::new();
        for (action, value) in script() {
            assert_eq!(host.act(action), Answer::Done(value), "{policy}: {action}");
            kinds.insert(action.record()[0]);
        }
        assert!(kinds.into_iter().eq(0..=15));
        assert!(host.valid());
        assert_eq!(host.policy(), Some(policy));
    }
}

#[test]
fn the_same_as_a_journal() {
    let (actions, values): (Vec<Action>, Vec<u32>) = script().into_iter().unzip();
    let mut answers = vec![255; ANSWER * actions.len()];
    let count = actions.len() as u32;
    let report = Host::fresh().run(&journal(&actions), &mut answers);
    assert_eq!(report, Ok(Report { taken: count, accepted: count, refused: 0, left_over: 0 }));
    let answered =
        answers.chunks_exact(ANSWER).map(|bytes| Answer::from_bytes(bytes.try_into().unwrap()));
    assert!(answered.eq(values.into_iter().map(Answer::Done)));
}

/// Between any two actions of the script: a host that is saved, and loaded over another, is the same, and goes on as it would have.
#[test]
fn saved_and_loaded_at_every_place() {
    for policy in WritePolicy::ALL {
        let mut host = Host::fresh_with(policy);
        for (action, value) in script() {
            let image = host.save().unwrap();
            let mut other = Host::from_bytes([255; SIZE]);
            assert_eq!(other.load(&image), Ok(()));
            assert_eq!(other, host);
            assert_eq!(other.save(), Ok(image));
            assert_eq!(other.act(action), Answer::Done(value), "{policy}: {action}");
            host = other;
        }
    }
}

/// The host has control, the active guest is this one, and the guests whose bits are set have calls that cannot be served.
fn called(active: u8, callers: u8) -> Host {
    let mut host = Host::fresh();
    all_done(&mut host, &[Action::RetCtrl]);
    for guest in (1..=4).map(|turn| (active + turn) % 4) {
        let call = if callers & 1 << guest != 0 { Call::New(Va(5), Pa(9)) } else { Call::None };
        all_done(&mut host, &[Action::Switch(Guest(guest)), Action::Chmod, Action::Hcall(call)]);
    }
    host
}

/// Whichever guest is active and whichever have calls: a drop leaves what there would be without that call, and then the guest runs.
#[test]
fn any_guest_runs_within_three_records() {
    for (active, guest, callers) in (0..=255).map(|n: u8| (n % 4, n / 4 % 4, n / 16)) {
        let mut host = called(active, callers);
        let has_call = callers & 1 << guest != 0;
        let answer = if has_call { Answer::Done(0) } else { Answer::Refused(Refusal::Call) };
        let case = format!("guest {active} active, drop {guest}, calls {callers:04b}");
        assert_eq!(host.act(Action::Drop(Guest(guest))), answer, "{case}");
        assert!(host == called(active, callers & !(1 << guest)), "{case}");
        all_done(&mut host, &[Action::Switch(Guest(guest)), Action::Chmod, Action::RetCtrl]);
    }
}

/// A refusal, what is done before on the fresh machine, and the action that is refused.
fn refusals() -> Vec<(Refusal, Vec<Action>, Action)> {
    let asked = |call| vec![Action::Hcall(call)];
    vec![
        (Refusal::Record, vec![], Action::Read(Va(64))),
        (Refusal::Record, vec![], Action::Unpin(Pa(16))),
        (Refusal::Record, vec![], Action::Switch(Guest(4))),
        (Refusal::Mode, vec![], Action::Chmod),
        (Refusal::Call, vec![Action::RetCtrl], Action::Pin(Pa(1), PinKind::Data)),
        (Refusal::Call, asked(Call::Pin(Pa(1), PinKind::Data)), Action::Pin(Pa(1), PinKind::Table)),
        (Refusal::Call, asked(Call::Del(Va(1))), Action::Chmod),
        (Refusal::Reserved, vec![], Action::Read(Va(47))),
        (Refusal::Reserved, asked(Call::New(Va::STEALTH, Pa(0))), Action::New(Va::STEALTH, Pa(0))),
        (Refusal::Unmapped, vec![], Action::Read(Va(46))),
        (Refusal::Unmapped, asked(Call::Del(Va(46))), Action::Del(Va(46))),
        (Refusal::Unmapped, asked(Call::Del(Va::STEALTH)), Action::Del(Va::STEALTH)),
        (Refusal::Reserved, asked(Call::Del(Va(47))), Action::Del(Va(47))),
        (Refusal::Unregistered, asked(Call::Unpin(Pa(1))), Action::Unpin(Pa(1))),
        (Refusal::PageKind, asked(Call::New(Va(0), Pa(0))), Action::New(Va(0), Pa(0))),
        (
            Refusal::StealthShared,
            [stealth(), asked(Call::New(Va(0), Pa(1)))].concat(),
            Action::New(Va(0), Pa(1)),
        ),
        (
            Refusal::PlaceTaken,
            asked(Call::Pin(Pa(0), PinKind::Data)),
            Action::Pin(Pa(0), PinKind::Data),
        ),
        (
            Refusal::PlaceTaken,
            [stealth(), asked(Call::New(Va::STEALTH, Pa(1)))].concat(),
            Action::NewSm(Pa(1)),
        ),
        (Refusal::InUse, asked(Call::Unpin(Pa(0))), Action::Unpin(Pa(0))),
    ]
}

/// The same of drop; guest 0 asks for something, or nobody does.
fn refused_drops() -> Vec<(Refusal, Vec<Action>, Action)> {
    let asked = Action::Hcall(Call::Del(Va(1)));
    let other_runs = vec![asked, Action::Switch(Guest(1)), Action::Chmod];
    vec![
        (Refusal::Record, vec![asked], Action::Drop(Guest(4))),
        (Refusal::Mode, other_runs, Action::Drop(Guest(0))),
        (Refusal::Call, vec![Action::RetCtrl], Action::Drop(Guest(0))),
        (Refusal::Call, vec![asked], Action::Drop(Guest(1))),
    ]
}

// Each of the next five asserts refusals by their names, and hands them on so that the test below sees whether all were given.

fn of_records() -> Vec<Refusal> {
    for (refusal, before, action) in [refusals(), refused_drops()].concat() {
        let mut host = Host::fresh();
        all_done(&mut host, &before);
        let state = host.clone();
        assert_eq!(host.act(action), Answer::Refused(refusal), "{action}");
        assert_eq!(host, state, "{action}");
    }
    refusals().into_iter().map(|(refusal, _, _)| refusal).collect()
}

fn of_a_damaged_state() -> Vec<Refusal> {
    let mut bytes = *Host::fresh().bytes();
    bytes[SIZE - 2] = 1; // the value of an empty line
    let mut host = Host::from_bytes(bytes);
    assert!(!host.valid());
    assert_eq!(host.act(Action::Silent), Answer::Refused(Refusal::State));
    assert_eq!(host.run(&journal(&[]), &mut []), Err(Refusal::State));
    assert_eq!(host.bytes(), &bytes);
    vec![Refusal::State]
}

fn of_the_last_page() -> Vec<Refusal> {
    let mut host = Host::fresh();
    assert_eq!(host.free_pages(), 56);
    for guest in [Guest(0), Guest(1), Guest(2), Guest(3)] {
        all_done(&mut host, &[Action::RetCtrl, Action::Switch(guest), Action::Chmod]);
        for pa in (1..16).map(Pa).take(host.free_pages() as usize) {
            all_done(&mut host, &pinned(pa, PinKind::Data));
        }
    }
    assert_eq!(host.free_pages(), 0);
    all_done(&mut host, &[Action::Hcall(Call::Pin(Pa(15), PinKind::Data))]);
    assert_eq!(host.act(Action::Pin(Pa(15), PinKind::Data)), Answer::Refused(Refusal::NoFreePage));
    vec![Refusal::NoFreePage]
}

fn of_journals() -> Vec<Refusal> {
    let mut host = Host::fresh();
    let mut answers = [255; ANSWER * 4096];
    let mut bytes = journal(&[Action::Silent; 4097]);
    assert_eq!(host.run(&bytes, &mut answers), Err(Refusal::TooManyRecords));
    bytes.pop();
    assert_eq!(host.run(&bytes, &mut answers[1..]), Err(Refusal::AnswerBuffer));
    assert_eq!(host.run(&bytes[1..], &mut answers), Err(Refusal::Header));
    assert_eq!(host.run(b"RPJ", &mut []), Err(Refusal::Header));
    assert_eq!(answers, [255; ANSWER * 4096]);
    assert_eq!(host, Host::fresh());
    vec![Refusal::TooManyRecords, Refusal::AnswerBuffer, Refusal::Header]
}

fn of_images() -> Vec<Refusal> {
    let image = Host::fresh().save().unwrap();
    let with = |places: &[usize]| {
        let mut other = image.to_vec();
        places.iter().for_each(|place| other[*place] = 1);
        other
    };
    let (mark, line) = (0, IMAGE_SIZE - 2); // a letter, and the value of an empty line
    let refused = [
        (Refusal::State, with(&[line])),
        (Refusal::Image, with(&[mark])),
        (Refusal::Image, with(&[mark, line])),
        (Refusal::Image, image[..IMAGE_SIZE - 1].to_vec()),
        (Refusal::Image, [&image[..], &[0]].concat()),
        (Refusal::Image, vec![]),
    ];
    for (refusal, bytes) in &refused {
        let mut other = Host::from_bytes([255; SIZE]);
        assert_eq!(other.load(bytes), Err(*refusal));
        assert_eq!(other.bytes(), &[255; SIZE]);
    }
    assert_eq!(Host::from_bytes([255; SIZE]).save(), Err(Refusal::State));
    refused.into_iter().map(|(refusal, _)| refusal).collect()
}

#[test]
fn every_refusal_is_given() {
    let given =
        [of_records(), of_a_damaged_state(), of_the_last_page(), of_journals(), of_images()]
            .concat();
    assert_eq!(HashSet::from_iter(given), HashSet::from(Refusal::ALL));
}

#[test]
fn any_bytes_are_judged() {
    let mut host = Host::fresh();
    for bytes in [
        &[][..],
        &[0; RECORD - 1],
        &[0; RECORD + 1],
        &[16, 0, 0, 0, 0, 0, 0, 0],
        &[255; RECORD],
        &[15, 0, 1, 0, 0, 0, 0, 0],
    ] {
        assert_eq!(host.step(bytes), Answer::Refused(Refusal::Record), "{bytes:?}");
    }
    assert_eq!(host.step(&[0; RECORD]), Answer::Done(0));
}

#[test]
fn a_report() {
    let mut answers = [255; ANSWER * 4096];
    let mut bytes = journal(&[Action::Silent; 4096]);
    bytes[HEADER..HEADER + RECORD].copy_from_slice(&Action::Chmod.record());
    bytes.extend([0; RECORD - 1]);
    let report = Report { taken: 4096, accepted: 4095, refused: 1, left_over: 7 };
    assert_eq!(Host::fresh().run(&bytes, &mut answers), Ok(report));
    assert_eq!(
        Answer::from_bytes(answers[..ANSWER].try_into().unwrap()),
        Answer::Refused(Refusal::Mode)
    );
    assert_eq!(answers[ANSWER..], [0; ANSWER * 4095]);
}

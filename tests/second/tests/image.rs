//! Images: their bytes, what is refused in which order, and that a refusal changes nothing.

mod support;

use second::damage::{broken_alone, states};
use second::gen::{deep, journal};
use second::image::{load, open, save};
use second::program::Ended;
use second::state::Mode;
use second::{
    fresh, fresh_with, image_of, old_image_of, program, step, valid, Policy, Start, State,
};
use second::{HEADER, IMAGE_BYTES, IMAGE_HEADER, OLD_BYTES, OLD_HEADER, RULES};
use support::{after_nine, after_nine_on, journal as journal_of, nine, Machine};

/// A machine that isn't valid, and no bytes of it like another's.
fn damaged() -> State {
    State::from_bytes(&[0xD7; second::STATE_BYTES])
}

/// Opens over a damaged machine; a refusal must leave it.
fn opened(image: &[u8]) -> Result<State, u8> {
    let mut state = damaged();
    let outcome = open(&mut state, image);
    assert!(outcome.is_ok() || state == damaged());
    outcome.map(|()| state)
}

/// Loads over a damaged machine; a refusal must leave it.
fn loaded(image: &[u8]) -> Result<State, u8> {
    let mut state = damaged();
    let outcome = load(&mut state, image);
    assert!(outcome.is_ok() || state == damaged());
    outcome.map(|()| state)
}

/// Saves into a marked buffer; a refusal must leave it.
fn saved(state: &State, length: usize) -> Result<Vec<u8>, u8> {
    let mut buffer = vec![0xEE; length];
    let outcome = save(state, &mut buffer);
    assert!(outcome.is_ok() || buffer.iter().all(|byte| *byte == 0xEE));
    outcome.map(|()| buffer)
}

/// States along a generated run.
fn along_a_run(policy: Policy) -> Vec<State> {
    let mut state = fresh_with(policy);
    let mut states = vec![state.clone()];
    for (i, record) in deep::records(7, 1200).iter().enumerate() {
        step(&mut state, record);
        if i % 100 == 99 {
            states.push(state.clone());
        }
    }
    states
}

#[test]
fn the_fresh_machine() {
    let mut image = vec![0; 4760];
    image[..5].copy_from_slice(&[82, 80, 83, 2, 0]);
    image[5..13].copy_from_slice(&[2, 3, 4, 5, 1, 1, 1, 1]);
    image[69..77].copy_from_slice(&[2, 2, 2, 2, 1, 1, 1, 1]);
    image[133..197].fill(1);
    for guest in 0..4 {
        image[4293 + 16 * guest] = guest as u8 + 1;
    }
    image[4358..4365].fill(255);
    image[4382] = 1;
    assert_eq!(saved(&fresh(), 4760), Ok(image.clone()));
    assert_eq!(loaded(&image), Ok(fresh()));
    image[4759] = 1;
    let through = fresh_with(Policy::WriteThrough);
    assert_eq!(saved(&through, 4760), Ok(image.clone()));
    assert_eq!(loaded(&image), Ok(through));
}

#[test]
fn after_the_nine_records() {
    let state = after_nine().0;
    let image = saved(&state, IMAGE_BYTES).unwrap();
    assert_eq!(image[4695..4699], [44, 1, 0, 0]);
    assert_eq!(image[4471..4475], [0; 4]);
    assert_eq!((image[5 + 8], image[69 + 8], image[197]), (2, 1, 9));
    assert_eq!((image[4383], image[4399], image[4415]), (0, 9, 1));
    let mut again = loaded(&image).unwrap();
    assert_eq!(again, state);
    assert_eq!(step(&mut again, &[1, 0, 0, 0, 0, 0, 0, 0]), (0, 300));
}

#[test]
fn after_the_nine_records_under_write_through() {
    let state = after_nine_on(Machine::started(Policy::WriteThrough)).0;
    let image = saved(&state, IMAGE_BYTES).unwrap();
    assert_eq!(image[4695..4699], [44, 1, 0, 0]);
    assert_eq!(image[4471..4475], [44, 1, 0, 0]);
    assert_eq!(image[4759], 1);
    assert_eq!(loaded(&image), Ok(state));
    // the write-back host with its policy set to 1 breaks rule 11 and no other
    let mut image = image_of(&after_nine().0);
    assert_eq!(image[4759], 0);
    image[4759] = 1;
    assert_eq!(loaded(&image), Err(1));
    assert_eq!(broken_alone(&opened(&image).unwrap()), Some(10));
    for byte in 2..=255 {
        image[4759] = byte;
        assert_eq!(loaded(&image), Err(1));
        assert_eq!(broken_alone(&opened(&image).unwrap()), Some(9));
    }
}

#[test]
fn version_1_is_read_as_write_back() {
    let states = Policy::BOTH.map(along_a_run).concat();
    let dirty = |state: &&State| !state.lines().all(|line| state.memory_has(line));
    assert!(states.iter().filter(dirty).count() > 3);
    for state in states {
        let old = old_image_of(&state);
        assert_eq!((old.len(), &old[..5]), (4759, &[82, 80, 83, 1, 0][..]));
        assert!(old[5..] == state.to_bytes()[..4754]);
        let back = State { policy: Policy::WriteBack, ..state };
        assert_eq!(opened(&old), Ok(back.clone()));
        assert_eq!(loaded(&old), Ok(back.clone()));
        // saved again: the same bytes but for the version, and a 0 behind them
        let new = [&[82, 80, 83, 2, 0], &old[5..], &[0]].concat();
        assert!(saved(&back, IMAGE_BYTES) == Ok(new));
    }
}

#[test]
fn version_1_is_judged_too() {
    for state in states(12, 300) {
        let back = State { policy: Policy::WriteBack, ..state };
        let outcome = if valid(&back) { Ok(back.clone()) } else { Err(1) };
        assert_eq!(loaded(&old_image_of(&back)), outcome);
        assert_eq!(opened(&old_image_of(&back)), Ok(back));
    }
}

#[test]
fn a_version_has_its_own_length() {
    for state in [fresh(), after_nine().0, fresh_with(Policy::WriteThrough), damaged()] {
        let (old, new) = (old_image_of(&state), image_of(&state));
        let mixed = [
            [&OLD_HEADER, &new[5..]].concat(),
            [&IMAGE_HEADER, &old[5..]].concat(),
            [&old[..], &[0]].concat(),
            new[..OLD_BYTES].to_vec(),
        ];
        for image in mixed {
            assert!(matches!(image.len(), 4759 | 4760));
            assert_eq!((opened(&image), loaded(&image)), (Err(16), Err(16)));
        }
    }
    // there is one version that is written
    assert_eq!(saved(&fresh(), OLD_BYTES), Err(16));
}

#[test]
fn what_was_saved_loads_to_the_same_and_the_other_way_round() {
    let states = Policy::BOTH.map(along_a_run).concat();
    for state in states {
        let image = saved(&state, IMAGE_BYTES).unwrap();
        assert!(image == image_of(&state));
        assert_eq!(opened(&image), Ok(state.clone()));
        let again = loaded(&image).unwrap();
        assert_eq!(again, state);
        assert!(saved(&again, IMAGE_BYTES) == Ok(image));
    }
}

#[test]
fn another_length_is_no_image() {
    for image in [image_of(&after_nine().0), old_image_of(&after_nine().0)] {
        let twice = [&image[..], &image].concat();
        for length in (0..=twice.len()).filter(|length| *length != image.len()) {
            assert_eq!(opened(&twice[..length]), Err(16), "{length} bytes");
            assert_eq!(loaded(&twice[..length]), Err(16), "{length} bytes");
        }
    }
    for length in (0..=2 * IMAGE_BYTES).filter(|length| *length != IMAGE_BYTES) {
        assert_eq!(saved(&fresh(), length), Err(16), "{length} bytes");
    }
}

#[test]
fn another_header_is_no_image() {
    for image in [image_of(&fresh()), old_image_of(&fresh())] {
        for at in 0..IMAGE_HEADER.len() {
            for byte in (0..=255).filter(|byte| *byte != image[at]) {
                let mut image = image.clone();
                image[at] = byte;
                assert_eq!(opened(&image), Err(16), "{byte} at {at}");
                assert_eq!(loaded(&image), Err(16), "{byte} at {at}");
            }
        }
    }
}

#[test]
fn load_refuses_with_16_before_1() {
    let mut image = image_of(&damaged());
    assert_eq!(loaded(&image), Err(1));
    assert_eq!(opened(&image), Ok(damaged()));
    assert_eq!(loaded(&image[..IMAGE_BYTES - 1]), Err(16));
    image.push(0);
    assert_eq!(loaded(&image), Err(16));
    image.pop();
    image[3..5].copy_from_slice(&[1, 1]);
    assert_eq!(loaded(&image), Err(16));
}

#[test]
fn save_refuses_with_1_before_16() {
    for length in [0, 1, IMAGE_BYTES - 1, IMAGE_BYTES, IMAGE_BYTES + 1] {
        assert_eq!(saved(&damaged(), length), Err(1), "{length} bytes");
    }
}

#[test]
fn each_rule_is_asked_by_load_and_by_save() {
    let mut met = [false; RULES];
    for state in states(11, 400) {
        let image = image_of(&state);
        assert_eq!(opened(&image).as_ref(), Ok(&state));
        let outcome = if valid(&state) { Ok(state.clone()) } else { Err(1) };
        assert_eq!(loaded(&image), outcome);
        assert_eq!(saved(&state, IMAGE_BYTES), outcome.map(|_| image));
        if let Some(rule) = broken_alone(&state) {
            met[rule] = true;
        }
    }
    assert_eq!(met, [true; RULES]);
}

#[test]
fn a_mark_of_two_is_not_read_as_one() {
    for at in (133..197).chain([4382]).chain(4415..4423).chain([4759]) {
        let mut image = image_of(&after_nine().0);
        image[at] = 2;
        assert_eq!(loaded(&image), Err(1), "2 at {at}");
        assert_eq!(image_of(&opened(&image).unwrap())[at], 2);
    }
}

/// The lines of a text between its first and its last.
fn answers(text: &str) -> Vec<&str> {
    let lines: Vec<&str> = text.lines().collect();
    lines[1..lines.len() - 1].iter().map(|line| line.split_once(' ').unwrap().1).collect()
}

#[test]
fn two_runs_with_an_image_between_are_one() {
    let whole = journal(4, 600, "near").unwrap();
    for records in [0, 1, 77, 300, 599, 600] {
        let (first, rest) = whole.split_at(8 + 8 * records);
        for fresh in [Start::default(), Start::default().through()] {
            let before = program(fresh, first);
            let from = Start { from: before.saved.as_deref(), ..fresh };
            let after = program(from, &[&HEADER[..], rest].concat());
            let once = program(fresh, &whole);
            let both = [answers(&before.text), answers(&after.text)].concat();
            assert_eq!(both, answers(&once.text));
            assert!(after.saved == once.saved);
        }
    }
}

#[test]
fn the_program_refuses_an_image_before_a_journal() {
    let good = image_of(&after_nine().0);
    let read = journal_of(&[[1, 0, 0, 0, 0, 0, 0, 0]]);
    let ended = program(Start::image(&good), &read);
    assert_eq!((&ended.text[..], ended.status), ("RPJ 1\n1 0 300\ndone 1 refused 0\n", 0));
    assert!(ended.saved == Some(good.clone()));
    let invalid = image_of(&damaged());
    let refusals = [
        (&good[1..], &read[..], "refused 16\n"),
        (&[], &read, "refused 16\n"),
        (&invalid, &read, "refused 1\n"),
        (&good[1..], b"none", "refused 16\n"),
        (&invalid, b"none", "refused 1\n"),
        (&good, b"none", "refused 13\n"),
    ];
    for (image, bytes, text) in refusals {
        let ended = program(Start::image(image), bytes);
        assert_eq!((&ended.text[..], ended.status, &ended.saved), (text, 1, &None));
        // the image is judged first, and a refused journal is not reached
        let through = program(Start::image(image).through(), bytes);
        assert_eq!(through, if image == good { Ended::wrong_use() } else { ended });
    }
}

#[test]
fn save_leaves_the_state_and_its_dirty_lines() {
    let state = after_nine().0;
    let before = state.clone();
    save(&state, &mut vec![0; IMAGE_BYTES]).unwrap();
    assert_eq!(state, before);
    assert_eq!((state.mode, state.pages[8].memory), (Mode::Running, 0));
    let ended = program(Start::default(), &journal_of(&nine()));
    assert!(ended.saved == Some(image_of(&before)));
}

//! `--check`: text and status for any bytes of a file; and what is named beside the verdicts of rules.rs.

mod support;

use second::damage::{self, at_places, in_pairs};
use second::rng::Rng;
use second::{check, first_broken, fresh, fresh_with, image_of, old_image_of, rules, Judged};
use second::{Policy, State, IMAGE_BYTES, IMAGE_HEADER, OLD_BYTES, OLD_HEADER, RULES, STATE_BYTES};
use support::base::*;
use support::binary::{second, Room};
use support::{after_nine, journal, nine};

/// The lines of a state of which these rules are broken, with their places.
fn lines(broken: &[(usize, &str)]) -> String {
    let line = |rule: usize| match broken.iter().find(|(of, _)| *of == rule) {
        Some((_, words)) => format!("{rule} broken {words}\n"),
        None => format!("{rule} holds\n"),
    };
    (1..=RULES).map(line).collect()
}

fn prints(image: &[u8], text: &str, status: u8) {
    let ended = check(image);
    assert_eq!((&ended.text[..], ended.status, ended.saved), (text, status, None));
}

fn damaged(changes: &[(usize, u8)]) -> State {
    let mut bytes = base(Policy::WriteBack);
    changes.iter().for_each(|(at, byte)| bytes[*at] = *byte);
    State::from_bytes(&bytes)
}

#[test]
fn all_rules_hold() {
    let text = "1 holds\n2 holds\n3 holds\n4 holds\n5 holds\n6 holds\n7 holds\n8 holds\n\
                9 holds\n10 holds\n11 holds\n";
    for state in Policy::BOTH.map(fresh_with).into_iter().chain([after_nine().0]) {
        prints(&image_of(&state), text, 0);
        prints(&old_image_of(&state), text, 0);
    }
}

#[test]
fn each_rule_whatever_the_others_are() {
    let state = damaged(&[(CALL, 1), (PHYSICAL + 6, 13), (MARK + 10, 1), (POLICY, 1)]);
    let broken = [(1, "guest 0"), (3, "guest 0 physical 5"), (6, "page 10"), (11, "set 0 way 0")];
    prints(&image_of(&state), &lines(&broken), 1);
    // version 1 is write-back
    prints(&old_image_of(&state), &lines(&broken[..3]), 1);
}

#[test]
fn version_1_is_write_back() {
    let mut state = after_nine().0;
    for policy in [Policy::WriteThrough, Policy::Odd(2), Policy::Odd(255)] {
        state.policy = policy;
        prints(&old_image_of(&state), &lines(&[]), 0);
    }
    prints(&image_of(&state), &lines(&[(10, "policy 0")]), 1);
    state.policy = Policy::WriteThrough;
    prints(&image_of(&state), &lines(&[(11, "set 0 way 0")]), 1);
}

#[test]
fn other_bytes_are_refused() {
    let refused = |image: &[u8]| prints(image, "refused 16\n", 1);
    for state in [fresh(), damaged(&[(CALL, 1)])] {
        for (image, header) in
            [(image_of(&state), IMAGE_HEADER), (old_image_of(&state), OLD_HEADER)]
        {
            for at in 0..header.len() {
                let mut other = image.clone();
                other[at] ^= 4;
                refused(&other);
            }
            refused(&[&image[..], &[0]].concat());
            refused(&image[..image.len() - 1]);
        }
        refused(&[&OLD_HEADER, &state.to_bytes()[..]].concat());
        refused(&[&IMAGE_HEADER, &state.to_bytes()[..STATE_BYTES - 1]].concat());
    }
    for length in [0, 1, 5, STATE_BYTES, OLD_BYTES, IMAGE_BYTES, 100_000] {
        refused(&vec![255; length]);
        refused(&vec![0; length]);
    }
}

#[test]
fn the_binary_checks() {
    let room = Room::new("check");
    let image = room.file("image");
    let cases = [
        image_of(&fresh()),
        old_image_of(&after_nine().0),
        image_of(&damaged(&[(HISTORY + 7, 1)])),
        [&IMAGE_HEADER[..], &[255; STATE_BYTES]].concat(),
        journal(&nine()),
        Vec::new(),
    ];
    for (case, status) in cases.iter().zip([0, 0, 1, 1, 1, 1]) {
        std::fs::write(&image, case).unwrap();
        let ended = second(&["check", &image], b"");
        assert_eq!(String::from_utf8(ended.stdout).unwrap(), check(case).text);
        assert_eq!((ended.status.code(), ended.stderr.len()), (Some(status), 0));
        assert!(std::fs::read(&image).unwrap() == *case);
    }
    for unread in [room.file("none"), room.0.to_str().unwrap().into(), String::new()] {
        let ended = second(&["check", &unread], b"");
        assert_eq!((ended.stdout.len(), ended.status.code()), (0, Some(2)));
        assert!(!ended.stderr.is_empty());
    }
    assert_eq!(second(&["check"], b"").status.code(), Some(2));
    assert_eq!(second(&["check", &image, "more"], b"").status.code(), Some(2));
}

/// States that are damaged in every way there is.
fn many() -> Vec<State> {
    let mut rng = Rng::new(11);
    let mut states: Vec<State> = (0..12).flat_map(|seed| damage::states(seed, 250)).collect();
    states.extend(at_places(1).into_iter().map(|(_, state)| state));
    states.extend(in_pairs(2, 6).into_iter().map(|(_, state)| state));
    for below in [2, 3, 6, 17, 66, 256] {
        let noise = |_| {
            State::from_bytes(&(0..STATE_BYTES).map(|_| rng.below(below) as u8).collect::<Vec<_>>())
        };
        states.extend((0..20).map(noise));
    }
    states.extend([0, 1, 2, 3, 64, 65, 255].map(|byte| State::from_bytes(&[byte; STATE_BYTES])));
    states
}

/// A rule is said to be broken exactly if it is; both were written by themselves.
#[test]
fn what_is_named_agrees_with_the_verdicts() {
    let states = many();
    assert!(states.len() > 4000, "{}", states.len());
    let mut told = [[0; 2]; RULES];
    for state in &states {
        let holds = rules(state);
        for rule in 1..=RULES {
            let judged = first_broken(state, rule as u8);
            assert_eq!(judged == Judged::Holds, holds[rule - 1], "rule {rule}: {judged:?}");
            told[rule - 1][holds[rule - 1] as usize] += 1;
        }
    }
    assert!(told.iter().flatten().all(|times| *times > 100), "{told:?}");
}

/// Its bytes, its words and the text say the same; a part and a place in it are below their numbers.
#[test]
fn numbers_and_words_are_of_one_place() {
    for state in many() {
        let text = check(&image_of(&state)).text;
        for (rule, line) in (1..).zip(text.lines()) {
            let judged = first_broken(&state, rule);
            let expected = match judged {
                Judged::Broken(broken) => {
                    let places = second::broken::PLACES[usize::from(rule) - 1];
                    assert!(usize::from(broken.place.number()) < places[usize::from(broken.part)]);
                    format!("{rule} broken {}", broken.place)
                }
                _ => format!("{rule} holds"),
            };
            assert_eq!(line, expected);
        }
        assert_eq!(text.lines().count(), RULES);
    }
}

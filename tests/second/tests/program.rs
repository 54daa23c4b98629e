//! The binary's subcommands.

mod support;

use std::path::PathBuf;

use second::hex::to_hex;
use second::{fresh, fresh_with, image_of, old_image_of, program_output, Policy, RULES};
use support::binary::{printed, second, Room};
use support::{after_nine, after_nine_on, journal, nine, Machine};

#[test]
fn run_and_state() {
    let bytes = journal(&nine());
    assert_eq!(printed(&["run"], &bytes), program_output(&bytes));
    let refused = second(&["run"], b"RPJ");
    assert_eq!((&refused.stdout[..], refused.status.code()), (&b"refused 13\n"[..], Some(1)));
    let hex = |state: &second::State| to_hex(&state.to_bytes()) + "\n";
    assert_eq!(printed(&["state"], &bytes), hex(&after_nine().0));
    assert_eq!(printed(&["state"], &bytes[1..]), hex(&fresh()));
    let through = after_nine_on(Machine::started(Policy::WriteThrough)).0;
    assert_eq!(printed(&["state", "through"], &bytes), hex(&through));
    let through = fresh_with(Policy::WriteThrough);
    assert_eq!(printed(&["state", "through"], &bytes[1..]), hex(&through));
}

/// As a whole and as it arrives, the answers are those of write-back, and the image has the policy.
#[test]
fn run_with_write_through() {
    let room = Room::new("through");
    let [kept, other] = ["kept", "other"].map(|name| room.file(name));
    let bytes = journal(&nine());
    let through = image_of(&after_nine_on(Machine::started(Policy::WriteThrough)).0);
    let read = journal(&[[1, 0, 0, 0, 0, 0, 0, 0]]);
    for word in ["run", "stream"] {
        assert_eq!(printed(&[word, "", "", "through"], &bytes), program_output(&bytes));
        assert_eq!(printed(&[word, "", &kept, "through"], &bytes), program_output(&bytes));
        assert!(std::fs::read(&kept).unwrap() == through);
        // an image goes on with its policy, asked for or not
        for words in [&[word, &kept, &other, "through"][..], &[word, &kept, &other]] {
            assert_eq!(printed(words, &read), "RPJ 1\n1 0 300\ndone 1 refused 0\n");
            assert!(std::fs::read(&other).unwrap() == through);
        }
        let refused = second(&[word, "", &kept, "through"], b"RPJ");
        assert_eq!((&refused.stdout[..], refused.status.code()), (&b"refused 13\n"[..], Some(1)));
    }
    assert_eq!(std::fs::read_dir(&room.0).unwrap().count(), 2);
}

#[test]
fn write_through_of_a_write_back_image_is_wrong_use() {
    let room = Room::new("wrong");
    let [kept, other] = ["kept", "other"].map(|name| room.file(name));
    std::fs::write(&other, b"other").unwrap();
    let state = after_nine().0;
    for image in [image_of(&state), old_image_of(&state), image_of(&fresh())] {
        std::fs::write(&kept, &image).unwrap();
        for (word, to) in ["run", "stream"].into_iter().flat_map(|w| [(w, &kept), (w, &other)]) {
            for journal in [journal(&nine()), b"none".to_vec(), Vec::new()] {
                let ended = second(&[word, &kept, to, "through"], &journal);
                assert_eq!((&ended.stdout[..], ended.status.code()), (&b""[..], Some(2)));
                assert!(!ended.stderr.is_empty());
                assert!(std::fs::read(&kept).unwrap() == image);
                assert!(std::fs::read(&other).unwrap() == b"other");
            }
        }
    }
    // a refused image is refused all the same
    let mut broken = image_of(&state);
    broken[4759] = 1;
    for (image, text) in [(&broken[..], "refused 1\n"), (&broken[1..], "refused 16\n")] {
        std::fs::write(&kept, image).unwrap();
        for word in ["run", "stream"] {
            let ended = second(&[word, &kept, &other, "through"], &journal(&nine()));
            assert_eq!((&ended.stdout[..], ended.status.code()), (text.as_bytes(), Some(1)));
        }
    }
    assert_eq!(std::fs::read_dir(&room.0).unwrap().count(), 2);
}

#[test]
fn run_from_an_image_and_to_one() {
    let room = Room::new("run");
    let [kept, other] = ["kept", "other"].map(|name| room.file(name));
    let bytes = journal(&nine());
    assert_eq!(printed(&["run", "", &kept], &bytes), program_output(&bytes));
    let image = image_of(&after_nine().0);
    assert!(std::fs::read(&kept).unwrap() == image);
    let read = journal(&[[1, 0, 0, 0, 0, 0, 0, 0]]);
    assert_eq!(printed(&["run", &kept, &kept], &read), "RPJ 1\n1 0 300\ndone 1 refused 0\n");
    assert!(std::fs::read(&kept).unwrap() == image);
    std::fs::write(&other, &image[1..]).unwrap();
    let refused = second(&["run", &other, &kept], &bytes);
    assert_eq!((&refused.stdout[..], refused.status.code()), (&b"refused 16\n"[..], Some(1)));
    assert!(std::fs::read(&kept).unwrap() == image);
    assert_eq!(second(&["run", &room.file("absent"), ""], &bytes).status.code(), Some(2));
    let mut names: Vec<_> =
        std::fs::read_dir(&room.0).unwrap().map(|f| f.unwrap().path()).collect();
    names.sort();
    assert_eq!(names, [PathBuf::from(kept), PathBuf::from(other)]);
}

#[test]
fn rules_and_step() {
    let good = to_hex(&fresh().to_bytes());
    let mut damaged = fresh();
    damaged.cache[7].history = 1;
    let bad = to_hex(&damaged.to_bytes());
    let text = printed(&["rules"], format!("{good}\n{bad}\n").as_bytes());
    assert_eq!(text, "11111111111 1\n11111111011 0\n");
    let mut waiting = fresh();
    waiting.mode = second::state::Mode::Waiting;
    let waiting = to_hex(&waiting.to_bytes());
    let input = format!("{good} 0b00000000000000\n{bad} 00\n{good} 0b\n{good} \n");
    let answers = printed(&["step"], input.as_bytes());
    assert_eq!(answers, format!("0 0 {waiting}\n1 0 {bad}\n2 0 {good}\n2 0 {good}\n"));
}

#[test]
fn gen_and_damage() {
    for profile in second::gen::PROFILES {
        let bytes = second(&["gen", "5", "30", profile], b"").stdout;
        assert!(bytes == second::gen::journal(5, 30, profile).unwrap());
    }
    let output = second(&["damage", "2", "300"], b"");
    let lines = String::from_utf8(output.stdout).unwrap();
    assert_eq!(lines.lines().count(), 300);
    assert_eq!(printed(&["rules"], lines.as_bytes()).lines().count(), 300);
    let told = String::from_utf8(output.stderr).unwrap();
    assert_eq!(told.lines().count(), RULES);
    assert!(!told.contains(" 0 times"), "{told}");
}

#[test]
fn mistakes_are_told() {
    let through = [&["run", "", "", "thorough"][..], &["run", "through"], &["state", "back"]];
    let others = [&[][..], &["walk"], &["gen", "1", "x", "deep"], &["gen", "1", "1", "wide"]];
    for words in others.into_iter().chain(through) {
        assert_eq!(second(words, b"").status.code(), Some(2));
    }
    assert_eq!(second(&["rules"], b"00\n").status.code(), Some(2));
}

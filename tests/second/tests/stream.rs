//! The program as its journal arrives.

mod support;

use std::io::{BufRead, BufReader, Read, Write};

use second::gen::journal as generated;
use second::program::Ended;
use second::{fresh, image_of, old_image_of, program, program_output, streamed};
use second::{Start, HEADER, IMAGE_BYTES};
use support::binary::{printed, second, started, Room};
use support::{after_nine, journal, nine, silent_journal};

#[test]
fn the_lines_are_those_of_a_run() {
    for (i, profile) in second::gen::PROFILES.into_iter().enumerate() {
        let journal = generated(i as u64, 300, profile).unwrap();
        for length in (0..40).chain([1234, journal.len()]) {
            let whole = program(Start::default(), &journal[..length]);
            for piece in [1, 7, 8, 9, 500, 5000] {
                let ended = streamed(Start::default(), &journal[..length], piece);
                assert_eq!(ended.text, whole.text, "{profile}, {length} bytes by {piece}");
                assert!(ended.status == whole.status && ended.saved == whole.saved);
            }
        }
    }
}

#[test]
fn wrong_headers_and_short_ones() {
    for piece in [1, 3, 8, 100] {
        for at in 0..8 {
            let mut journal = silent_journal(9, 0);
            journal[at] ^= 1;
            for bytes in [&journal[..], &journal[..at + 1], &HEADER[..at]] {
                let ended = streamed(Start::default(), bytes, piece);
                assert_eq!((&ended.text[..], ended.status), ("refused 13\n", 1));
                assert_eq!(ended.saved, None);
            }
        }
    }
}

#[test]
fn more_records_than_a_whole_journal_may_have() {
    let journal = generated(4, 20_000, "deep").unwrap();
    assert_eq!(program_output(&journal), "refused 14\n");
    let text = printed(&["stream"], &journal);
    assert_eq!(text, streamed(Start::default(), &journal, 1000).text);
    let lines: Vec<&str> = text.lines().collect();
    assert_eq!((lines[0], lines.len()), ("RPJ 1", 20_002));
    let number = |line: &str| line.split(' ').next().unwrap().parse();
    let numbers: Result<Vec<u64>, _> = lines[1..20_001].iter().map(|line| number(line)).collect();
    assert_eq!(numbers, Ok((1..20_001).collect()));
    assert_eq!(lines[20_001], "done 20000 refused 0");
}

/// The next line of a program that waits for more.
fn line(output: &mut impl BufRead) -> String {
    let mut line = String::new();
    output.read_line(&mut line).unwrap();
    line
}

#[test]
fn lines_come_as_records_do() {
    let mut child = started(&["stream"]);
    let mut input = child.stdin.take().unwrap();
    let mut output = BufReader::new(child.stdout.take().unwrap());
    input.write_all(&HEADER).unwrap();
    assert_eq!(line(&mut output), "RPJ 1\n");
    for (i, record) in nine().iter().enumerate() {
        input.write_all(&record[..3]).unwrap();
        input.write_all(&record[3..]).unwrap();
        let answer = ["0 0", "0 300", "6 0"][i.saturating_sub(6)];
        assert_eq!(line(&mut output), format!("{} {answer}\n", i + 1));
    }
    input.write_all(&[1, 2]).unwrap();
    drop(input);
    assert_eq!(line(&mut output) + &line(&mut output), "cut 2\ndone 8 refused 1\n");
    assert!(child.wait().unwrap().success());
}

#[test]
fn what_follows_a_wrong_byte_is_not_read() {
    let mut child = started(&["stream"]);
    let mut input = child.stdin.take().unwrap();
    input.write_all(b"RPJ\x02").unwrap();
    // the input stays open, and the program ends all the same
    let mut text = String::new();
    child.stdout.take().unwrap().read_to_string(&mut text).unwrap();
    assert_eq!((&text[..], child.wait().unwrap().code()), ("refused 13\n", Some(1)));
}

#[test]
fn from_an_image_and_to_one() {
    let room = Room::new("stream");
    let [kept, other] = ["kept", "other"].map(|name| room.file(name));
    let bytes = journal(&nine());
    assert_eq!(printed(&["stream", "", &kept], &bytes), program_output(&bytes));
    let image = image_of(&after_nine().0);
    assert!(std::fs::read(&kept).unwrap() == image);
    let read = journal(&[[1, 0, 0, 0, 0, 0, 0, 0], [11, 0, 0, 0, 0, 0, 0, 0]]);
    let text = "RPJ 1\n1 0 300\n2 0 0\ndone 2 refused 0\n";
    assert_eq!(printed(&["stream", &kept, &other], &read), text);
    assert_eq!(std::fs::read(&other).unwrap(), program(Start::image(&image), &read).saved.unwrap());
    // nothing is saved of a journal that is refused, nor where the image is
    std::fs::write(&other, &image[..IMAGE_BYTES - 1]).unwrap();
    for (from, journal, text) in
        [(&kept, &b"RPJ\x01\x00\x00\x00"[..], "refused 13\n"), (&other, &bytes, "refused 16\n")]
    {
        let refused = second(&["stream", from, &kept], journal);
        assert_eq!((&refused.stdout[..], refused.status.code()), (text.as_bytes(), Some(1)));
        assert!(std::fs::read(&kept).unwrap() == image);
    }
    assert_eq!(second(&["stream", &room.file("absent"), ""], &bytes).status.code(), Some(2));
    assert_eq!(std::fs::read_dir(&room.0).unwrap().count(), 2);
}

#[test]
fn an_image_is_judged_before_the_input_is_read() {
    let mut broken = fresh();
    broken.active = 4;
    let ended = streamed(Start::image(&image_of(&broken)), b"none", 4);
    assert_eq!((&ended.text[..], ended.status, ended.saved), ("refused 1\n", 1, None));
    let room = Room::new("judged");
    let kept = room.file("kept");
    std::fs::write(&kept, b"RPS").unwrap();
    let mut child = started(&["stream", &kept, ""]);
    let _open = child.stdin.take();
    assert_eq!(child.wait().unwrap().code(), Some(1));
}

#[test]
fn under_write_through_the_lines_are_the_same() {
    for (i, profile) in second::gen::PROFILES.into_iter().enumerate() {
        let journal = generated(i as u64, 300, profile).unwrap();
        let (back, start) = (program(Start::default(), &journal), Start::default().through());
        let whole = program(start, &journal);
        assert!(whole.text == back.text && whole.saved != back.saved);
        for piece in [1, 9, 500] {
            assert!(streamed(start, &journal, piece) == whole);
            // and from there on, where the image has the policy
            let from = Start::image(whole.saved.as_deref().unwrap());
            let on = program(from, &journal);
            assert!(streamed(from.through(), &journal, piece) == on);
        }
    }
}

#[test]
fn wrong_use_is_seen_before_the_input_is_read() {
    let image = image_of(&after_nine().0);
    for bytes in [&journal(&nine())[..], b"none", b""] {
        let start = Start::image(&image).through();
        assert_eq!(streamed(start, bytes, 4), Ended::wrong_use());
    }
    let room = Room::new("unread");
    let kept = room.file("kept");
    std::fs::write(&kept, old_image_of(&fresh())).unwrap();
    let mut child = started(&["stream", &kept, &kept, "through"]);
    let _open = child.stdin.take();
    assert_eq!(child.wait().unwrap().code(), Some(2));
    assert!(std::fs::read(&kept).unwrap() == old_image_of(&fresh()));
}

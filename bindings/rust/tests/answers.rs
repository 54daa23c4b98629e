//! Answers, refusals and reports: their numbers, and their words.

use std::collections::BTreeSet;

use ration::{Answer, Refusal, Report};

#[test]
fn numbers_from_1_to_16() {
    assert!(Refusal::ALL.iter().map(|refusal| refusal.number()).eq(1..=16));
    for refusal in Refusal::ALL {
        assert_eq!(Refusal::from_number(refusal.number()), Some(refusal));
    }
    assert_eq!(Refusal::from_number(0), None);
}

#[test]
fn answers_from_bytes() {
    assert_eq!(Answer::from_bytes([0, 0, 0, 0, 1, 2, 3, 4]), Answer::Done(0x04030201));
    assert_eq!(Answer::from_bytes([6, 0, 0, 0, 0, 0, 0, 0]), Answer::Refused(Refusal::Unmapped));
    assert_eq!((Answer::Done(300).number(), Answer::Done(300).value()), (0, 300));
    let refused = Answer::Refused(Refusal::InUse);
    assert_eq!((refused.number(), refused.value()), (12, 0));
}

#[test]
fn a_number_without_a_name_is_shown() {
    for (bytes, number) in [
        ([17, 0, 0, 0], 17),
        ([255, 0, 0, 0], 255),
        ([0, 1, 0, 0], 256),
        ([6, 0, 0, 128], 0x80000006),
    ] {
        let answer = Answer::from_bytes([bytes[0], bytes[1], bytes[2], bytes[3], 0, 0, 0, 0]);
        assert!(matches!(answer, Answer::Refused(Refusal::Other(_))), "{answer:?}");
        assert_eq!(answer.number(), number);
        assert_eq!(
            answer.to_string(),
            format!("refused {number}: this package has no words for this number")
        );
    }
}

#[test]
fn words() {
    assert_eq!(Answer::Done(300).to_string(), "done 300");
    let refused = Answer::Refused(Refusal::NoFreePage);
    assert_eq!(refused.to_string(), "refused 11: no page is free");
    let error: Box<dyn std::error::Error> = Box::new(Refusal::NoFreePage);
    assert_eq!(error.to_string(), refused.to_string());
    let report = Report { taken: 9, accepted: 8, refused: 1, left_over: 3 };
    assert_eq!(report.to_string(), "taken 9, accepted 8, refused 1, left over 3");
}

#[test]
fn each_refusal_has_words_of_its_own() {
    let said = |refusal: Refusal| refusal.to_string().split_once(": ").unwrap().1.to_owned();
    let words = BTreeSet::from(Refusal::ALL.map(said));
    assert_eq!(words.len(), Refusal::ALL.len());
}

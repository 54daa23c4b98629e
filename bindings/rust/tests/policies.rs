//! Both write policies: what a host is started with, what it keeps, and that its answers are the same.

use ration::{Host, Refusal, Report, WritePolicy, ANSWER, IMAGE_SIZE, SIZE};

const NINE: &[u8] = include_bytes!("../../../examples/nine.rpj");

// of docs/STATE.md and docs/IMAGE.md
const MEMORY_OF_8: usize = 4434 + 4 * 8;
const POLICY: usize = 4754;
const VERSION: usize = 3;
const FIRST_VERSION_SIZE: usize = 4759;

/// What the nine records of docs/HOST.md answer, and the host after them.
fn nine(policy: WritePolicy) -> (Report, [u8; ANSWER * 9], Host) {
    let mut host = Host::fresh_with(policy);
    let mut answers = [255; ANSWER * 9];
    let report = host.run(NINE, &mut answers).unwrap();
    (report, answers, host)
}

fn with(bytes: &[u8], place: usize, byte: u8) -> Vec<u8> {
    let mut other = bytes.to_vec();
    other[place] = byte;
    other
}

/// What comes of loading the bytes over a damaged host, which a refusal leaves as it was.
fn loaded(image: &[u8]) -> Result<Host, Refusal> {
    let damaged = Host::from_bytes([255; SIZE]);
    let mut host = damaged.clone();
    let loaded = host.load(image);
    assert!(loaded.is_ok() || host == damaged);
    loaded.map(|()| host)
}

#[test]
fn numbers_and_words() {
    for number in 0..=255 {
        let policy = WritePolicy::ALL.get(usize::from(number)).copied();
        assert_eq!(WritePolicy::from_number(number), policy);
    }
    assert_eq!(WritePolicy::ALL.map(WritePolicy::number), [0, 1]);
    assert_eq!(WritePolicy::ALL.map(|policy| policy.to_string()), ["write-back", "write-through"]);
}

#[test]
fn a_fresh_host_has_its_policy_and_nothing_else_is_different() {
    assert_eq!(Host::fresh().policy(), Some(WritePolicy::Back));
    for number in 0..=255 {
        let bytes = with(Host::fresh().bytes(), POLICY, number);
        let host = Host::from_bytes(bytes.try_into().unwrap());
        let policy = WritePolicy::from_number(number);
        assert_eq!(host.policy(), policy);
        assert_eq!(host.valid(), policy.is_some());
        if let Some(policy) = policy {
            assert_eq!(Host::fresh_with(policy), host);
        }
    }
}

#[test]
fn the_same_answers_and_another_memory() {
    let [back, through] = WritePolicy::ALL.map(nine);
    assert_eq!((back.0, back.1), (through.0, through.1));
    let mut bytes = *back.2.bytes();
    assert_eq!(bytes[MEMORY_OF_8..][..4], [0; 4]);
    bytes[MEMORY_OF_8..][..4].copy_from_slice(&300u32.to_le_bytes());
    bytes[POLICY] = 1;
    assert_eq!(through.2.bytes(), &bytes);
}

#[test]
fn an_image_has_its_policy() {
    for policy in WritePolicy::ALL {
        let (_, _, host) = nine(policy);
        let image = host.save().unwrap();
        assert_eq!(image[..5], *b"RPS\x02\0");
        assert_eq!(image[IMAGE_SIZE - 1], policy.number());
        assert_eq!(loaded(&image), Ok(host));
        assert_eq!(loaded(&image[..FIRST_VERSION_SIZE]), Err(Refusal::Image));
        assert_eq!(loaded(&with(&image, IMAGE_SIZE - 1, 2)), Err(Refusal::State));
    }
}

/// Memory has not what a line has: that is write-back alone. Where it has, it may be either.
#[test]
fn the_policy_of_an_image_is_judged() {
    let [back, through] = WritePolicy::ALL.map(|policy| nine(policy).2.save().unwrap());
    assert_eq!(loaded(&with(&back, IMAGE_SIZE - 1, 1)), Err(Refusal::State));
    let other = loaded(&with(&through, IMAGE_SIZE - 1, 0)).unwrap();
    assert_eq!(other.policy(), Some(WritePolicy::Back));
}

#[test]
fn an_image_of_version_1_is_write_back() {
    for policy in WritePolicy::ALL {
        let image = nine(policy).2.save().unwrap();
        let first = with(&image, VERSION, 1);
        let host = loaded(&first[..FIRST_VERSION_SIZE]).unwrap();
        assert_eq!(host.bytes()[..], with(nine(policy).2.bytes(), POLICY, 0));
        assert_eq!(host.save().unwrap()[..], with(&image, IMAGE_SIZE - 1, 0));
        assert_eq!(loaded(&first), Err(Refusal::Image));
        assert_eq!(loaded(&first[..FIRST_VERSION_SIZE - 1]), Err(Refusal::Image));
    }
}

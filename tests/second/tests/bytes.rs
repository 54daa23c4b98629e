//! The state as bytes, and hex.

mod support;

use second::hex::{from_hex, to_hex};
use second::rng::Rng;
use second::{fresh, fresh_with, rules, step, valid, Policy, State, STATE_BYTES};
use support::{after_nine, after_nine_on, Machine};

#[test]
fn random_bytes_come_back() {
    let mut rng = Rng::new(1);
    for round in 0..300 {
        let bytes: Vec<u8> = (0..STATE_BYTES)
            .map(|_| if round % 3 == 0 { rng.below(8) as u8 } else { rng.byte() })
            .collect();
        let mut state = State::from_bytes(&bytes);
        assert!(state.to_bytes() == bytes);
        rules(&state);
        assert_eq!(step(&mut state, &[0; 8]), (1, 0));
        assert!(state.to_bytes() == bytes);
    }
}

#[test]
fn each_byte_has_its_own_place() {
    let zeros = vec![0; STATE_BYTES];
    for at in 0..STATE_BYTES {
        let mut bytes = zeros.clone();
        bytes[at] = 0x9C;
        assert!(State::from_bytes(&bytes).to_bytes() == bytes, "byte {at}");
    }
}

#[test]
fn the_fresh_machine_in_bytes() {
    let mut bytes = vec![0; STATE_BYTES];
    bytes[..8].copy_from_slice(&[2, 3, 4, 5, 1, 1, 1, 1]);
    bytes[64..72].copy_from_slice(&[2, 2, 2, 2, 1, 1, 1, 1]);
    bytes[128..192].fill(1);
    for guest in 0..4 {
        bytes[4288 + 16 * guest] = guest as u8 + 1;
    }
    bytes[4353..4360].fill(0xFF);
    bytes[4377] = 1;
    assert_eq!(bytes.len(), 4755);
    assert!(fresh().to_bytes() == bytes);
    assert!(valid(&fresh()));
    bytes[4754] = 1;
    let through = fresh_with(Policy::WriteThrough);
    assert!(through.to_bytes() == bytes && State::from_bytes(&bytes) == through);
    assert!(valid(&through));
}

#[test]
fn the_nine_records_in_bytes() {
    let bytes = after_nine().0.to_bytes();
    assert_eq!((bytes[8], bytes[64 + 8], bytes[128 + 8]), (2, 1, 1));
    assert_eq!(bytes[192], 9);
    assert_eq!(bytes[4288 + 1], 9);
    assert_eq!(bytes[4353], 0xFE);
    assert_eq!((bytes[4378], bytes[4394], bytes[4410]), (0, 9, 1));
    assert_eq!((bytes[4418], bytes[4426]), (0, 9));
    assert_eq!(bytes[4434 + 32..4434 + 36], [0; 4]);
    assert_eq!(bytes[4690..4694], [0x2C, 1, 0, 0]);
    assert_eq!(bytes[4754], 0);
    let mut through = bytes;
    through[4434 + 32..4434 + 36].copy_from_slice(&[0x2C, 1, 0, 0]);
    through[4754] = 1;
    assert!(after_nine_on(Machine::started(Policy::WriteThrough)).0.to_bytes() == through);
}

#[test]
fn policies_as_bytes() {
    for byte in 0..=255 {
        let policy = Policy::from_byte(byte);
        assert_eq!(policy.byte(), byte);
        assert_eq!(policy == Policy::WriteBack, byte == 0);
        assert_eq!(policy == Policy::WriteThrough, byte == 1);
        assert_eq!(fresh_with(policy).to_bytes()[4754], byte);
    }
}

#[test]
fn hex_both_ways() {
    assert_eq!(to_hex(&[0, 0xAB, 0x0F]), "00ab0f");
    assert_eq!(from_hex("00aB0f"), Some(vec![0, 0xAB, 0x0F]));
    assert_eq!(from_hex(""), Some(vec![]));
    assert_eq!(from_hex("0"), None);
    assert_eq!(from_hex("0g"), None);
}

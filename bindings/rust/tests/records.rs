//! Each action's record, byte by byte, and its words; and journals.

use ration::{journal, Action, Call, Guest, Pa, PinKind, Va, HEADER, RECORD};

/// Every action and every call. No two arguments of a row are equal, nor two bytes of a value, so that none can stand for another.
const ROWS: [(Action, [u8; RECORD], &str); 23] = [
    (Action::Silent, [0, 0, 0, 0, 0, 0, 0, 0], "silent"),
    (Action::Read(Va(41)), [1, 41, 0, 0, 0, 0, 0, 0], "read 41"),
    (Action::ReadHyper(Va(41)), [2, 41, 0, 0, 0, 0, 0, 0], "read_hyper 41"),
    (Action::Write(Va(0), 300), [3, 0, 0, 0, 44, 1, 0, 0], "write 0 300"),
    (Action::Write(Va(41), 0x04030201), [3, 41, 0, 0, 1, 2, 3, 4], "write 41 67305985"),
    (Action::WriteHyper(Va(41), 0x04030201), [4, 41, 0, 0, 1, 2, 3, 4], "write_hyper 41 67305985"),
    (Action::New(Va(41), Pa(9)), [5, 41, 9, 0, 0, 0, 0, 0], "new 41 9"),
    (Action::NewSm(Pa(9)), [6, 7, 9, 0, 0, 0, 0, 0], "new_sm 9"),
    (Action::Del(Va(41)), [7, 41, 0, 0, 0, 0, 0, 0], "del 41"),
    (Action::Switch(Guest(3)), [8, 3, 0, 0, 0, 0, 0, 0], "switch 3"),
    (Action::Lswitch(Pa(9)), [9, 9, 0, 0, 0, 0, 0, 0], "lswitch 9"),
    (Action::Hcall(Call::None), [10, 0, 0, 0, 0, 0, 0, 0], "hcall none"),
    (Action::Hcall(Call::New(Va(41), Pa(9))), [10, 41, 9, 1, 0, 0, 0, 0], "hcall new 41 9"),
    (Action::Hcall(Call::Del(Va(41))), [10, 41, 0, 2, 0, 0, 0, 0], "hcall del 41"),
    (Action::Hcall(Call::Lswitch(Pa(9))), [10, 9, 0, 3, 0, 0, 0, 0], "hcall lswitch 9"),
    (
        Action::Hcall(Call::Pin(Pa(9), PinKind::Table)),
        [10, 9, 1, 4, 0, 0, 0, 0],
        "hcall pin 9 table",
    ),
    (Action::Hcall(Call::Unpin(Pa(9))), [10, 9, 0, 5, 0, 0, 0, 0], "hcall unpin 9"),
    (Action::RetCtrl, [11, 0, 0, 0, 0, 0, 0, 0], "ret_ctrl"),
    (Action::Chmod, [12, 0, 0, 0, 0, 0, 0, 0], "chmod"),
    (Action::Pin(Pa(9), PinKind::Data), [13, 9, 0, 0, 0, 0, 0, 0], "pin 9 data"),
    (Action::Pin(Pa(9), PinKind::Table), [13, 9, 1, 0, 0, 0, 0, 0], "pin 9 table"),
    (Action::Unpin(Pa(9)), [14, 9, 0, 0, 0, 0, 0, 0], "unpin 9"),
    (Action::Drop(Guest(3)), [15, 3, 0, 0, 0, 0, 0, 0], "drop 3"),
];

#[test]
fn records_byte_by_byte() {
    for (action, record, _) in ROWS {
        assert_eq!(action.record(), record, "{action:?}");
    }
}

#[test]
fn actions_in_words() {
    for (action, _, words) in ROWS {
        assert_eq!(action.to_string(), words);
    }
}

#[test]
fn every_kind_and_every_call_has_a_row() {
    let met = |place: usize| {
        ROWS.iter().map(|(_, record, _)| record[place]).collect::<std::collections::BTreeSet<u8>>()
    };
    assert!(met(0).into_iter().eq(0..=15));
    assert!(met(3).into_iter().eq(0..=5));
}

#[test]
fn a_journal_is_the_header_and_the_records() {
    let header = [b'R', b'P', b'J', 1, 0, 0, 0, 0];
    assert_eq!(journal(&[]), header);
    let bytes = journal(&ROWS.map(|(action, _, _)| action));
    assert_eq!(bytes[..HEADER], header);
    assert_eq!(bytes[HEADER..], ROWS.map(|(_, record, _)| record).concat());
}

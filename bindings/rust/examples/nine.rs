//! Runs the nine records of docs/HOST.md, first as a journal and then action by action, and prints what the program prints.

use ration::{journal, Action, Answer, Call, Host, Pa, PinKind, Refusal, Va, ANSWER};

const NINE: [Action; 9] = [
    Action::Hcall(Call::Pin(Pa(1), PinKind::Data)), // guest 0 asks for a data page at physical address 1
    Action::Pin(Pa(1), PinKind::Data),              // the host gives it one
    Action::Chmod,                                  // and lets the guest run on
    Action::Hcall(Call::New(Va(0), Pa(1))),         // it asks for that page at virtual address 0
    Action::New(Va(0), Pa(1)),
    Action::Chmod,
    Action::Write(Va(0), 300),
    Action::Read(Va(0)),
    Action::Read(Va(1)), // nothing is mapped there
];

fn main() -> Result<(), Refusal> {
    let mut host = Host::fresh();
    let mut answers = [0; ANSWER * NINE.len()];
    let report = host.run(&journal(&NINE), &mut answers)?;
    println!("RPJ 1");
    let mut again = Host::fresh();
    for (i, (action, stored)) in NINE.into_iter().zip(answers.chunks_exact(ANSWER)).enumerate() {
        let answer = again.act(action);
        assert_eq!(answer, Answer::from_bytes(stored.try_into().unwrap()));
        println!("{} {} {}", i + 1, answer.number(), answer.value());
    }
    println!("done {} refused {}", report.accepted, report.refused);
    assert!(host == again && host.valid() && host.free_pages() == 55);
    Ok(())
}

//! Does the six records of examples/declined.rpj: the host declines a call that it cannot serve, and the guest runs on. Prints what the
//! program prints.

use ration::{Action, Call, Guest, Host, Pa, PinKind};

const SIX: [Action; 6] = [
    Action::Hcall(Call::Pin(Pa(0), PinKind::Data)), // guest 0 asks for a page where it has one
    Action::Pin(Pa(0), PinKind::Data),              // the host cannot give it one
    Action::Chmod,                                  // nor let the guest run
    Action::Drop(Guest(0)),                         // so the host declines the call of guest 0
    Action::Chmod,                                  // and lets it run on
    Action::Hcall(Call::Pin(Pa(1), PinKind::Data)), // the guest asks for a page elsewhere
];

fn main() {
    let mut host = Host::fresh();
    println!("RPJ 1");
    let answers = SIX.map(|action| host.act(action));
    for (i, answer) in answers.iter().enumerate() {
        println!("{} {} {}", i + 1, answer.number(), answer.value());
    }
    let accepted = answers.iter().filter(|answer| answer.number() == 0).count();
    println!("done {accepted} refused {}", answers.len() - accepted);
    assert!(host.valid());
}

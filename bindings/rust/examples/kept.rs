//! A host that is saved, and loaded by another: what a guest wrote on the first is read on the second. Does the records of
//! examples/nine.rpj that change a host, saves it, and prints what the program prints of examples/kept.rpj from that image.

use ration::{Action, Call, Host, Pa, PinKind, Refusal, Va, IMAGE_SIZE, SIZE};

const FIRST: [Action; 7] = [
    Action::Hcall(Call::Pin(Pa(1), PinKind::Data)),
    Action::Pin(Pa(1), PinKind::Data),
    Action::Chmod,
    Action::Hcall(Call::New(Va(0), Pa(1))),
    Action::New(Va(0), Pa(1)),
    Action::Chmod,
    Action::Write(Va(0), 300),
];

/// A host on which guest 0 wrote 300 at address 0. Nothing of it is left but its image.
fn first_host() -> Result<[u8; IMAGE_SIZE], Refusal> {
    let mut host = Host::fresh();
    for action in FIRST {
        host.act(action);
    }
    host.save()
}

fn main() -> Result<(), Refusal> {
    let image = first_host()?;
    let mut host = Host::from_bytes([255; SIZE]); // a damaged host, which is loaded over
    host.load(&image)?;
    let answer = host.act(Action::Read(Va(0)));
    println!("RPJ 1");
    println!("1 {} {}", answer.number(), answer.value());
    let refused = u32::from(answer.number() != 0);
    println!("done {} refused {refused}", 1 - refused);
    assert!(host.valid());
    Ok(())
}

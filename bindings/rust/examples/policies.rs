//! Runs examples/nine.rpj on two hosts, one of each write policy: report and answers are the same, to the byte, and under write-through
//! memory has what was written at once. Prints what the program prints, with `--write-through` and without.

use ration::{Answer, Host, Refusal, WritePolicy, ANSWER};

const JOURNAL: &[u8] = include_bytes!("../../../examples/nine.rpj");
const RECORDS: usize = 9;

/// Where the value of page 8 stands, the first that is pinned: docs/STATE.md, memory.
const MEMORY_OF_8: usize = 4434 + 4 * 8;

fn in_memory(host: &Host) -> u32 {
    u32::from_le_bytes(host.bytes()[MEMORY_OF_8..][..4].try_into().unwrap())
}

fn main() -> Result<(), Refusal> {
    let [mut back, mut through] = WritePolicy::ALL.map(Host::fresh_with);
    let (mut answers, mut others) = ([0; ANSWER * RECORDS], [0; ANSWER * RECORDS]);
    let report = back.run(JOURNAL, &mut answers)?;
    assert_eq!((through.run(JOURNAL, &mut others)?, others), (report, answers));
    println!("RPJ 1");
    for (i, stored) in answers.chunks_exact(ANSWER).enumerate() {
        let answer = Answer::from_bytes(stored.try_into().unwrap());
        println!("{} {} {}", i + 1, answer.number(), answer.value());
    }
    println!("done {} refused {}", report.accepted, report.refused);
    assert_eq!((in_memory(&back), in_memory(&through)), (0, 300));
    assert_eq!(through.policy(), Some(WritePolicy::Through));
    Ok(())
}

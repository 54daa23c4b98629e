//! A journal on both policies: what ours gives under the one, against what ours gives under the other.

use second::bytes::OFFSETS;
use second::{Policy, STATE_BYTES};

use crate::difference::place;
use crate::journals::journal;
use crate::programs::Ask;
use crate::task::{On, Task, VERDICT};

/// Where a machine has these fields (docs/STATE.md).
const LINE_PAGE: usize = OFFSETS[13];
const HISTORY: usize = OFFSETS[14];
const MEMORY: usize = OFFSETS[17];
const LINE: usize = OFFSETS[18];
const POLICY: usize = OFFSETS[19];

/// Whether the two are one journal, first on the fresh machine of write-back and then on that of write-through.
pub fn are_pair(one: &Task, other: &Task) -> bool {
    use Policy::{WriteBack, WriteThrough};
    match (one, other) {
        (
            Task::Run { on: On::Fresh(WriteBack), journal, buffer },
            Task::Run { on: On::Fresh(WriteThrough), journal: again, buffer: room },
        ) => journal == again && buffer == room,
        _ => false,
    }
}

/// The result under write-back as write-through has it: in memory too what is in a line, and the other policy.
fn written_through(result: &[u8]) -> Vec<u8> {
    let mut result = result.to_vec();
    let start = result.len() - STATE_BYTES;
    let machine = &mut result[start..];
    for way in 0..HISTORY - LINE_PAGE {
        if let page @ 1..=64 = machine[LINE_PAGE + way] as usize {
            let line = LINE + 4 * way;
            machine.copy_within(line..line + 4, MEMORY + 4 * (page - 1));
        }
    }
    machine[POLICY] ^= 1;
    result
}

/// None where the report, the answer buffer and the machine are the same, but for the policy and what memory has under lines.
pub fn of_pair(back: &[u8], through: &[u8]) -> Option<String> {
    let expected = written_through(back);
    let at = (0..expected.len()).find(|at| through.get(*at) != Some(&expected[*at]))?;
    let machine = expected.len() - STATE_BYTES;
    let what = match at {
        0..VERDICT => format!("verdict and report, byte {at}"),
        _ if at < machine => format!("answer buffer, byte {}", at - VERDICT),
        _ => place(at - machine),
    };
    let (back, through) = (expected[at], through[at]);
    Some(format!(
        "ours on both policies, {what}\n  write-back:    {back}\n  write-through: {through}"
    ))
}

/// What ours gave on both.
pub struct Pair {
    back: Vec<u8>,
    through: Vec<u8>,
}

impl Pair {
    pub fn wrong(&self) -> Option<&'static str> {
        of_pair(&self.back, &self.through).map(|_| "the policies differ")
    }

    /// Every byte that counts: under write-back those of memory may not.
    pub fn byte(&mut self, at: usize) -> Option<&mut u8> {
        let start = self.back.len() - STATE_BYTES;
        let (before, memory) = self.back.split_at_mut(start + MEMORY);
        self.through.iter_mut().chain(before).chain(&mut memory[LINE - MEMORY..]).nth(at)
    }
}

/// One of them.
pub fn one(ask: &mut Ask) -> Result<Pair, String> {
    let mut run = |policy| {
        let (journal, buffer) = (journal("deep", 3), vec![7; 2403]);
        ask(&Task::Run { on: On::Fresh(policy), journal, buffer })
    };
    Ok(Pair { back: run(Policy::WriteBack)?, through: run(Policy::WriteThrough)? })
}

#[cfg(test)]
mod tests {
    use super::*;

    /// With the second program in place of ours; the pair has a line that memory has not under write-back.
    #[test]
    fn the_second_program_is_the_same_on_both_policies() {
        let Pair { back, through } = one(&mut |task| Ok(task.expected())).unwrap();
        assert_eq!(of_pair(&back, &through), None);
        let memory = back.len() - STATE_BYTES + MEMORY;
        assert!(back[memory..memory + LINE - MEMORY] != through[memory..memory + LINE - MEMORY]);
        assert!(of_pair(&through, &back).is_some() && of_pair(&back, &back).is_some());
    }
}

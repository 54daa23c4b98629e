//! Whether machines do the same: report, answers and state, byte for byte. What differs is not timed.

use crate::machines::Named;

/// What the answer buffer holds beforehand, and where nothing is written.
const BEFORE: u8 = 0xA5;

/// Runs the journal on each, with an answer buffer of so many bytes; says which machine differs from the first, and in what.
pub fn run_all(machines: &mut [Named], journal: &[u8], room: usize) -> Result<(), String> {
    let mut first = None;
    for (name, machine) in machines {
        let mut answers = vec![BEFORE; room];
        let report = machine.run(journal, &mut answers);
        let found = (report, answers, machine.bytes());
        let (report, answers, state) = first.get_or_insert_with(|| found.clone());
        let parts = [
            ("report", found.0 == *report),
            ("answers", found.1 == *answers),
            ("state", found.2 == *state),
        ];
        if let Some((part, _)) = parts.into_iter().find(|(_, same)| !same) {
            return Err(format!("{name}: not the first machine's {part}"));
        }
    }
    Ok(())
}

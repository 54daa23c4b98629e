//! What was met, counted from our results; the table of it, and what is missing in it.

use crate::check_tally::CheckTally;
use crate::image_tally::ImageTally;
use crate::piece_tally::PieceTally;
use crate::task::{On, Task, RULES, VERDICT};
use crate::twin_tally::TwinTally;

/// Each kind with the numbers that the tables of docs/HOST.md let it get, but for 1.
pub const KINDS: [(&str, &[usize]); 16] = [
    ("silent", &[0, 2]),
    ("read", &[0, 2, 3, 5, 6]),
    ("read_hyper", &[0, 2, 3, 5, 6]),
    ("write", &[0, 2, 3, 5, 6]),
    ("write_hyper", &[0, 2, 3, 5, 6]),
    ("new", &[0, 2, 3, 4, 5, 7, 8, 9]),
    ("new_sm", &[0, 2, 3, 4, 7, 8, 9, 10]),
    ("del", &[0, 2, 3, 4, 5, 6]),
    ("switch", &[0, 2, 3, 4]),
    ("lswitch", &[0, 2, 3, 4, 7, 8]),
    ("hcall", &[0, 2, 3]),
    ("ret_ctrl", &[0, 2, 3]),
    ("chmod", &[0, 2, 3, 4]),
    ("pin", &[0, 2, 3, 4, 10, 11]),
    ("unpin", &[0, 2, 3, 4, 7, 12]),
    ("drop", &[0, 2, 3, 4]),
];

const NUMBERS: usize = 17;
/// The one number that neither a record nor a journal gets.
const NO_IMAGE: usize = 16;

const SWITCH: u8 = 8;
const DROP: u8 = 15;
const GUESTS: u8 = second::GuestId::COUNT as u8;
/// Kinds from here on are none.
const NO_KIND: u8 = KINDS.len() as u8;

/// Whom a drop names, and the numbers that each must have got; 2 is of bytes that it does not use.
const NAMED: [&str; 2] = ["the active guest", "another guest"];
const OF_NAMED: [usize; 4] = [0, 2, 3, 4];

/// Where a machine has its active guest (docs/STATE.md).
const ACTIVE: usize = 4376;

/// Numbers that no row of the kinds has.
const OF_NO_KIND: [usize; 4] = [1, 13, 14, 15];

#[derive(Default)]
pub struct Tally {
    /// Answers by kind of the record, the last for bytes that have none, and number.
    answers: [[usize; NUMBERS]; KINDS.len() + 1],
    /// Answers to drop by whom it names and number.
    drops: [[usize; NUMBERS]; 2],
    /// Verdicts of whole journals by number.
    verdicts: [usize; NUMBERS],
    /// Rules broken alone, and with others.
    alone: [usize; second::RULES],
    with_others: [usize; second::RULES],
    pub images: ImageTally,
    pub pieces: PieceTally,
    pub checks: CheckTally,
    pub twins: TwinTally,
    pub valid: usize,
    pub journals: usize,
    /// Journals on both policies, ours against ours.
    pub pairs: usize,
    pub records: usize,
    pub states: usize,
}

impl Tally {
    /// Everything met once.
    pub fn full() -> Tally {
        let mut full = Tally::default();
        full.needed().into_iter().for_each(|count| *count = 1);
        full
    }

    /// Without the answers to drop by whom it names.
    pub fn without_drops(self) -> Tally {
        Tally { drops: Default::default(), ..self }
    }

    /// The counts of which none may be 0.
    pub fn needed(&mut self) -> Vec<&mut usize> {
        let mut needed = Vec::new();
        for ((_, numbers), row) in KINDS.iter().zip(&mut self.answers) {
            needed.extend(row.iter_mut().enumerate().filter(|(n, _)| numbers.contains(n)));
        }
        for row in &mut self.drops {
            needed.extend(row.iter_mut().enumerate().filter(|(n, _)| OF_NAMED.contains(n)));
        }
        let verdicts = self.verdicts.iter_mut().enumerate();
        needed.extend(verdicts.filter(|(n, _)| OF_NO_KIND.contains(n)));
        needed.extend(self.alone.iter_mut().chain(&mut self.with_others).enumerate());
        let needed = needed.into_iter().map(|(_, count)| count);
        let others = self.images.needed().into_iter().chain(self.pieces.counts.all());
        let others = others.chain(self.checks.counts.all()).chain(self.twins.counts.all());
        needed.chain(others).chain([&mut self.pairs]).collect()
    }

    pub fn note(&mut self, task: &Task, ours: &[u8]) {
        match task {
            Task::Run { on: On::Fresh(_), journal, .. } => self.note_run(0, journal, ours),
            Task::Run { on: On::Machine(machine), journal, .. } => {
                self.note_run(machine[ACTIVE], journal, ours);
            }
            Task::Judge { machine, record } => self.note_judgement(machine[ACTIVE], record, ours),
            Task::Open { .. } | Task::Load { .. } | Task::Save { .. } => {
                self.images.note(task, ours[0]);
            }
            Task::Feed(feed) => self.pieces.note(feed, ours),
            Task::Begin { kept } => self.pieces.note_begin(kept),
            Task::Check { .. } => self.checks.note_check(ours),
            Task::Report { image, .. } => self.checks.note_report(image, ours),
        }
    }

    fn note_run(&mut self, mut active: u8, journal: &[u8], ours: &[u8]) {
        self.journals += 1;
        self.verdicts[ours[0] as usize % NUMBERS] += 1;
        if ours[0] == 0 {
            let records = journal[8..].chunks_exact(8);
            self.records += records.len();
            for (record, answer) in records.zip(ours[VERDICT..].chunks(8)) {
                self.note_answer(active, record, answer[0]);
                if (record[0], answer[0]) == (SWITCH, 0) {
                    active = record[1];
                }
            }
        }
    }

    fn note_judgement(&mut self, active: u8, record: &[u8], ours: &[u8]) {
        self.states += 1;
        self.note_answer(active, record, ours[RULES]);
        let (holds, valid) = (&ours[..second::RULES], ours[second::RULES]);
        self.valid += valid as usize;
        let broken: Vec<usize> = (0..holds.len()).filter(|rule| holds[*rule] == 0).collect();
        match broken[..] {
            [rule] => self.alone[rule] += 1,
            _ => broken.iter().for_each(|rule| self.with_others[*rule] += 1),
        }
    }

    fn note_answer(&mut self, active: u8, record: &[u8], number: u8) {
        let number = number as usize % NUMBERS;
        let kind = record.first().map_or(NO_KIND, |kind| (*kind).min(NO_KIND));
        self.answers[kind as usize][number] += 1;
        if let [DROP, named @ 0..GUESTS, _, _, _, _, _, _] = *record {
            self.drops[(named != active) as usize][number] += 1;
        }
    }

    /// How often a number was given, to a record or to a journal.
    fn given(&self, number: usize) -> usize {
        self.verdicts[number] + self.answers.iter().map(|row| row[number]).sum::<usize>()
    }

    pub fn print(&self) {
        let cells = |row: &[usize]| row.iter().map(|n| format!("{n:>7}")).collect::<String>();
        let numbers: Vec<usize> = (0..13).collect();
        println!("{:<12}{}", "answers", cells(&numbers));
        let names = KINDS.iter().map(|(name, _)| *name).chain(["no kind"]);
        for (name, row) in names.zip(&self.answers) {
            println!("{name:<12}{}", cells(&row[..13]));
        }
        for (named, row) in NAMED.iter().zip(&self.drops) {
            let counts = OF_NAMED.map(|number| format!("{number}: {}", row[number]));
            println!("drop of {named:<16} {}", counts.join("  "));
        }
        let numbers: Vec<usize> = (0..NO_IMAGE).collect();
        println!("{:<12}{}", "", cells(&numbers));
        println!("{:<12}{}", "journals", cells(&self.verdicts[..NO_IMAGE]));
        let given: Vec<usize> = numbers.iter().map(|number| self.given(*number)).collect();
        println!("{:<12}{}", "given", cells(&given));
        let rules: Vec<usize> = (1..=second::RULES).collect();
        println!("{:<12}{}", "rules", cells(&rules));
        println!("{:<12}{}", "alone", cells(&self.alone));
        println!("{:<12}{}", "with others", cells(&self.with_others));
        self.images.print();
        self.pieces.counts.print();
        self.checks.counts.print();
        self.twins.counts.print();
    }

    /// What never happened, and what can't have.
    pub fn missing(&self) -> Vec<String> {
        let mut missing = Vec::new();
        for (kind, (name, numbers)) in KINDS.iter().enumerate() {
            for number in (0..NUMBERS).filter(|number| *number != 1) {
                let met = self.answers[kind][number] > 0;
                match (met, numbers.contains(&number)) {
                    (false, true) => missing.push(format!("{name} never got {number}")),
                    (true, false) => missing.push(format!("{name} got {number}")),
                    _ => {}
                }
            }
        }
        for (named, row) in NAMED.iter().zip(&self.drops) {
            let never = OF_NAMED.iter().filter(|number| row[**number] == 0);
            missing.extend(never.map(|number| format!("drop of {named} never got {number}")));
        }
        let never = (0..NO_IMAGE).filter(|number| self.given(*number) == 0);
        missing.extend(never.map(|number| format!("number {number} was never given")));
        if self.verdicts[NO_IMAGE] > 0 {
            missing.push(format!("a journal got {NO_IMAGE}"));
        }
        for (how, counts) in [("alone", &self.alone), ("with others", &self.with_others)] {
            let never = (0..counts.len()).filter(|rule| counts[*rule] == 0);
            missing.extend(never.map(|rule| format!("rule {} was never broken {how}", rule + 1)));
        }
        if self.pairs == 0 {
            missing.push("no journal was run on both policies".into());
        }
        missing.extend(self.images.missing());
        missing.extend(self.pieces.counts.missing());
        missing.extend(self.checks.counts.missing());
        missing.extend(self.twins.counts.missing());
        missing
    }
}

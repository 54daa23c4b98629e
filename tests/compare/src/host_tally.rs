//! What was met by runs of `rpj` with images, counted from what ours leaves.

use second::{Policy, OLD_HEADER};

use crate::hosts::{Host, Left, FORMS, FROM_IMAGE};

/// What the program may print first, nothing at wrong use, and whether that is of the image that it starts from.
const OUTCOMES: [(&str, bool); 6] = [
    (RUN, false),
    ("refused 1", true),
    ("refused 13", false),
    (TOO_MANY, false),
    ("refused 16", true),
    (WRONG_USE, true),
];
const RUN: &str = "RPJ 1";
/// Of a journal that comes as a whole.
const TOO_MANY: &str = "refused 14";
/// With write-through alone.
const WRONG_USE: &str = "";

/// What it starts from.
const SOURCES: [&str; 4] = ["no image", "write-back", "write-through", "version 1"];

/// Which of SOURCES.
fn source(host: &Host) -> usize {
    match host.image() {
        None => 0,
        Some(image) if image.starts_with(&OLD_HEADER) => 3,
        Some(image) => 1 + (image.last() == Some(&Policy::WriteThrough.byte())) as usize,
    }
}

/// How often each form had each outcome, without write-through and with it.
pub struct HostTally {
    counts: [[[usize; OUTCOMES.len()]; FORMS.len()]; 2],
    /// What was run, or not as wrong use, by what it started from.
    sources: [[usize; SOURCES.len()]; 2],
    /// Of journals that are run as they arrive, which are never too long.
    streams: bool,
}

impl HostTally {
    pub fn new(streams: bool) -> HostTally {
        HostTally { counts: Default::default(), sources: Default::default(), streams }
    }

    pub fn note(&mut self, host: &Host, ours: &Left) {
        let text = String::from_utf8_lossy(&ours.text);
        let first = text.lines().next().unwrap_or(WRONG_USE);
        let place = OUTCOMES.iter().position(|(outcome, _)| first == *outcome);
        if let Some(place) = place {
            self.counts[host.through as usize][host.form][place] += 1;
        }
        if matches!(first, RUN | WRONG_USE) {
            self.sources[host.through as usize][source(host)] += 1;
        }
    }

    fn possible(&self, through: bool, form: usize, place: usize) -> bool {
        let (outcome, of_image) = OUTCOMES[place];
        (!of_image || FROM_IMAGE.contains(&form))
            && !(self.streams && outcome == TOO_MANY)
            && (through || outcome != WRONG_USE)
    }

    /// Everything met once.
    pub fn full(streams: bool) -> HostTally {
        let mut full = HostTally::new(streams);
        full.needed().into_iter().for_each(|count| *count = 1);
        full
    }

    /// By through, form and place.
    fn places() -> impl Iterator<Item = (bool, usize, usize)> {
        let forms = [false, true].into_iter().flat_map(|t| (0..FORMS.len()).map(move |f| (t, f)));
        forms.flat_map(|(t, f)| (0..OUTCOMES.len()).map(move |p| (t, f, p)))
    }

    /// The counts of which none may be 0.
    pub fn needed(&mut self) -> Vec<&mut usize> {
        let can: Vec<bool> = HostTally::places().map(|(t, f, p)| self.possible(t, f, p)).collect();
        let counts = self.counts.iter_mut().flatten().flatten().zip(can);
        let counts = counts.filter(|(_, can)| *can).map(|(count, _)| count);
        counts.chain(self.sources.iter_mut().flatten()).collect()
    }

    /// What never happened, and what can't have.
    pub fn missing(&self) -> Vec<String> {
        let mut missing = Vec::new();
        let what = if self.streams { "rpj as a stream" } else { "rpj" };
        let asked = |through| if through { " with write-through" } else { "" };
        for (through, form, place) in HostTally::places() {
            let met = self.counts[through as usize][form][place] > 0;
            let said = match (met, self.possible(through, form, place)) {
                (false, true) => "never had",
                (true, false) => "had",
                _ => continue,
            };
            let ((from, to, before), asked) = (FORMS[form], asked(through));
            let outcome = OUTCOMES[place].0;
            missing.push(format!(
                "{what}{asked} from {from:?} to {to:?} with {before:?} {said} {outcome:?}"
            ));
        }
        for (through, counts) in [false, true].into_iter().zip(self.sources) {
            let never = SOURCES.iter().zip(counts).filter(|(_, count)| *count == 0);
            missing.extend(
                never.map(|(source, _)| format!("{what}{} never had {source}", asked(through))),
            );
        }
        missing
    }
}

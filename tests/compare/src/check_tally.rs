//! What was met by checks and reports, counted from our results.

use second::broken::PLACES;
use second::{check, valid};

use crate::check_met::{all, At, By, Met, NO_RULES};
use crate::check_shapes::SHAPES;
use crate::checks::{places, Given, Place, ASKED, TOLD};
use crate::counts::Counts;
use crate::image_tally::which_length;
use crate::versions::Version;

pub struct CheckTally {
    pub counts: Counts<Met>,
    pub checks: usize,
    pub reports: usize,
    /// Images of which a rule is broken.
    pub broken: usize,
}

impl Default for CheckTally {
    fn default() -> CheckTally {
        let counts = Counts::of(all());
        CheckTally { counts, checks: 0, reports: 0, broken: 0 }
    }
}

impl CheckTally {
    pub fn note_check(&mut self, ours: &[u8]) {
        self.checks += 1;
        let mut rules = Vec::new();
        for (told, number) in ours.chunks(TOLD).zip(ASKED) {
            let place = u16::from_le_bytes([told[2], told[3]]);
            match told[0] {
                2 => self.counts.add(Met::NoRule(number)),
                broken if !NO_RULES.contains(&number) => {
                    rules.push((broken == 1).then_some((told[1].into(), place.into())));
                }
                _ => {}
            }
        }
        self.note_rules(By::Check, &rules);
    }

    pub fn note_report(&mut self, image: &[u8], ours: &[u8]) {
        self.reports += 1;
        let given = Given::of(ours);
        let whole = check(image).text.len();
        let met = match Version::of(image) {
            None => self.refused(image, &given),
            Some(version) => self.told(version, image, &given),
        };
        met.into_iter().for_each(|met| self.counts.add(met));
        self.counts.add(Met::Room(Version::of(image).is_none(), room(given.buffer.len(), whole)));
    }

    /// Of what is no image: the one thing that is wrong with it, of either version.
    fn refused(&self, image: &[u8], given: &Given) -> Vec<Met> {
        let mut met = Vec::new();
        if given.status != b'1' || !b"refused 16\n".starts_with(given.text()) {
            return met;
        }
        for version in Version::BOTH {
            let starts = image.iter().zip(version.header()).enumerate();
            let wrong: Vec<usize> = starts.filter(|(_, (a, b))| *a != b).map(|(i, _)| i).collect();
            match (which_length(version, image.len()), &wrong[..]) {
                (Some(i), []) => met.push(Met::Length(version, i)),
                (None, [at]) => {
                    let held = version.held(image).is_some_and(|state| valid(&state));
                    met.push(Met::Header(version, *at, held));
                }
                _ => {}
            }
        }
        met
    }

    fn told(&mut self, version: Version, image: &[u8], given: &Given) -> Vec<Met> {
        let mut met = vec![Met::Status(version, given.status)];
        let Some(rules) = places(given.text()) else { return met };
        self.note_rules(By::Report(version), &rules);
        let broken = broken(&rules);
        self.broken += !broken.is_empty() as usize;
        met.extend(shapes(version, image, &broken));
        met
    }

    fn note_rules(&mut self, by: By, rules: &[Option<Place>]) {
        for (rule, place) in (1..).zip(rules) {
            let Some((part, place)) = *place else {
                self.counts.add(Met::Holds(by, rule));
                continue;
            };
            self.counts.add(Met::Broken(by, rule));
            let places = PLACES.get(rule - 1).and_then(|parts| parts.get(part));
            places.into_iter().for_each(|places| {
                self.counts.add(Met::Place(by, rule, part, At::of(place, *places)));
            });
        }
        match broken(rules)[..] {
            [rule] => self.counts.add(Met::Alone(by, rule)),
            [one, other] => self.counts.add(Met::Pair(by, [one, other])),
            _ => {}
        }
    }
}

fn broken(rules: &[Option<Place>]) -> Vec<usize> {
    (1..).zip(rules).filter(|(_, place)| place.is_some()).map(|(rule, _)| rule).collect()
}

/// Which of SHAPES it has, where their rules are broken or hold as they ask for.
fn shapes(version: Version, image: &[u8], broken: &[usize]) -> Vec<Met> {
    let Some(state) = version.held(image) else { return Vec::new() };
    let has = |i: &usize| {
        let (_, asked, has) = SHAPES[*i];
        asked.is_so(broken) && has(version, &state)
    };
    (0..SHAPES.len()).filter(has).map(Met::Shape).collect()
}

/// Which of ROOMS.
fn room(room: usize, text: usize) -> usize {
    match room {
        0 => 0,
        _ if room + 1 == text => 2,
        _ if room < text => 1,
        _ => 3 + (room > text) as usize,
    }
}

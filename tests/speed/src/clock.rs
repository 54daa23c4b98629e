//! Times, side by side: in each round everything that is timed has one run, in an order that is drawn anew, so that nothing always
//! follows the same neighbour.

use std::hint::black_box;
use std::time::{Duration, Instant};

use ration::ANSWER;
use second::rng::Rng;

use crate::cases::RECORDS;
use crate::machines::Machine;

/// Runs of each. Odd, so that one of them is the median.
pub const ROUNDS: usize = 1001;

/// A journal on a machine, to be run again and again.
pub struct Timed {
    pub case: &'static str,
    pub name: &'static str,
    pub machine: Box<dyn Machine>,
    pub journal: Vec<u8>,
}

/// Of many times, the one in the middle, and those between which the middle half lies.
pub struct Times {
    pub low: Duration,
    pub median: Duration,
    pub high: Duration,
}

impl Times {
    fn of(mut times: Vec<Duration>) -> Times {
        times.sort_unstable();
        let at = |share: usize| times[(times.len() - 1) * share / 4];
        Times { low: at(1), median: at(2), high: at(3) }
    }
}

impl Timed {
    fn time(&mut self, answers: &mut [u8]) -> Duration {
        let start = Instant::now();
        let report = self.machine.run(black_box(&self.journal), answers);
        let time = start.elapsed();
        assert!(black_box(report).is_ok(), "{}: the journal was refused", self.case);
        black_box(answers);
        time
    }
}

/// The order of the numbers below a limit, drawn.
fn order(rng: &mut Rng, limit: usize) -> Vec<usize> {
    let mut order: Vec<usize> = (0..limit).collect();
    for last in (1..limit).rev() {
        order.swap(last, rng.below(last + 1));
    }
    order
}

pub fn side_by_side(all: &mut [Timed]) -> Vec<Times> {
    let mut rng = Rng::new(0);
    let mut answers = vec![0; RECORDS * ANSWER];
    let mut times: Vec<_> = all.iter().map(|_| Vec::with_capacity(ROUNDS)).collect();
    for _ in 0..ROUNDS {
        for which in order(&mut rng, all.len()) {
            times[which].push(all[which].time(&mut answers));
        }
    }
    times.into_iter().map(Times::of).collect()
}

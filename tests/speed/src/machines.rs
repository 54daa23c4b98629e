//! What is measured: hosts that run journals.

use ration::{Host, Refusal, Report, WritePolicy, SIZE};

use crate::engine::{BitByBit, Engine, Search, TrailingZeros};

pub trait Machine {
    fn run(&mut self, journal: &[u8], answers: &mut [u8]) -> Result<Report, Refusal>;

    /// The state, by docs/STATE.md.
    fn bytes(&self) -> [u8; SIZE];
}

impl Machine for Host {
    fn run(&mut self, journal: &[u8], answers: &mut [u8]) -> Result<Report, Refusal> {
        Host::run(self, journal, answers)
    }

    fn bytes(&self) -> [u8; SIZE] {
        *Host::bytes(self)
    }
}

impl<S: Search> Machine for Engine<S> {
    fn run(&mut self, journal: &[u8], answers: &mut [u8]) -> Result<Report, Refusal> {
        Engine::run(self, journal, answers)
    }

    fn bytes(&self) -> [u8; SIZE] {
        Engine::bytes(self)
    }
}

/// A machine with its name; the proved one is the first.
pub type Named = (&'static str, Box<dyn Machine>);

pub fn fresh_with(policy: WritePolicy) -> Vec<Named> {
    vec![
        ("proved machine", Box::new(Host::fresh_with(policy))),
        ("engine, bit by bit", Box::new(Engine::<BitByBit>::fresh_with(policy))),
        ("engine, trailing zeros", Box::new(Engine::<TrailingZeros>::fresh_with(policy))),
    ]
}

//! What the tests share: a machine with short names, and journals.
#![allow(dead_code)]

pub mod base;
pub mod binary;
pub mod named;
pub mod pieces;

use second::hex::from_hex;
use second::{fresh_with, step, valid, Policy, State, HEADER};

pub struct Machine(pub State);

impl Machine {
    pub fn fresh() -> Machine {
        Machine::started(Policy::WriteBack)
    }

    pub fn started(policy: Policy) -> Machine {
        Machine(fresh_with(policy))
    }

    /// Gives a record; the state must stay valid, and a refusal must change nothing.
    pub fn give(&mut self, record: &[u8]) -> (u8, u32) {
        let before = self.0.to_bytes();
        let answer = step(&mut self.0, record);
        assert!(valid(&self.0), "invalid after {record:?}");
        if answer.0 != 0 {
            assert_eq!(answer.1, 0);
            assert!(self.0.to_bytes() == before, "refusal changed the state: {record:?}");
        }
        answer
    }

    /// The answer's number.
    pub fn no(&mut self, kind: u8, a: u8, b: u8) -> u8 {
        self.give(&[kind, a, b, 0, 0, 0, 0, 0]).0
    }

    pub fn ok(&mut self, kind: u8, a: u8, b: u8) {
        assert_eq!(self.no(kind, a, b), 0, "kind {kind} {a} {b}");
    }

    pub fn hcall(&mut self, call: u8, a: u8, b: u8) -> u8 {
        self.give(&[10, a, b, call, 0, 0, 0, 0]).0
    }

    /// hcall and its action: new (or new_sm), del, lswitch, pin, unpin.
    pub fn call(&mut self, call: u8, a: u8, b: u8) -> u8 {
        assert_eq!(self.hcall(call, a, b), 0);
        let kind = [0, 5, 7, 9, 13, 14][call as usize];
        self.no(if call == 1 && a == 7 { 6 } else { kind }, a, b)
    }

    /// The same, accepted, and the guest runs again.
    pub fn served(&mut self, call: u8, a: u8, b: u8) {
        assert_eq!(self.call(call, a, b), 0, "call {call} {a} {b}");
        self.ok(12, 0, 0);
    }

    pub fn read(&mut self, va: u8) -> u32 {
        let (number, value) = self.give(&[1, va, 0, 0, 0, 0, 0, 0]);
        assert_eq!(number, 0, "read {va}");
        value
    }

    pub fn write(&mut self, va: u8, value: u32) {
        let v = value.to_le_bytes();
        assert_eq!(self.give(&[3, va, 0, 0, v[0], v[1], v[2], v[3]]), (0, 0));
    }

    /// ret_ctrl, switch, chmod.
    pub fn go_to(&mut self, guest: u8) {
        self.ok(11, 0, 0);
        self.ok(8, guest, 0);
        self.ok(12, 0, 0);
    }

    pub fn memory(&self, page: usize) -> u32 {
        self.0.pages[page].memory
    }

    pub fn cacheable(&self, page: usize) -> bool {
        self.0.pages[page].mark == 1
    }

    /// Address, page and value of a way; None where it is empty.
    pub fn line(&self, set: usize, way: usize) -> Option<(u8, u8, u32)> {
        let line = self.0.cache[set].ways[way];
        line.page.page().map(|page| (line.address, page.byte(), line.value))
    }

    pub fn slot(&self, slot: usize) -> Option<(u8, u8)> {
        let slot = self.0.tlb[slot];
        slot.page.page().map(|page| (slot.address, page.byte()))
    }

    pub fn history(&self, set: usize) -> u8 {
        self.0.cache[set].history
    }
}

/// The nine records of docs/HOST.md.
pub const NINE: &str = "0A01000400000000 0D01000000000000 0C00000000000000 0A00010100000000 \
                        0500010000000000 0C00000000000000 030000002C010000 0100000000000000 \
                        0101000000000000";

pub fn nine() -> Vec<[u8; 8]> {
    NINE.split_whitespace().map(|word| from_hex(word).unwrap().try_into().unwrap()).collect()
}

pub fn after_nine() -> Machine {
    after_nine_on(Machine::fresh())
}

pub fn after_nine_on(mut machine: Machine) -> Machine {
    for record in nine() {
        machine.give(&record);
    }
    machine
}

pub fn journal(records: &[[u8; 8]]) -> Vec<u8> {
    [&HEADER[..], &records.concat()].concat()
}

/// A journal of so many silent records and then some bytes.
pub fn silent_journal(records: usize, more: usize) -> Vec<u8> {
    [&HEADER[..], &vec![0; 8 * records + more]].concat()
}

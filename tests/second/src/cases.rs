//! Runs of the rule book, and the edges of a journal: what the program `cases` prints, from this state and this step.

use crate::{fresh, run_journal, step, State, HEADER};

const OWN_ACTION: [u8; 6] = [0, 5, 7, 9, 13, 14];
const CACHEABLE: usize = 128;
const FREE: usize = 4352;
const LINE_ADDRESS: usize = 4378;
const LINE_PAGE: usize = 4394;
const HISTORY: usize = 4410;
const MEMORY: usize = 4434;
const LINE: usize = 4690;

struct Cases {
    state: State,
    text: String,
}

/// All of the text.
pub fn cases() -> String {
    let mut cases = Cases { state: fresh(), text: String::new() };
    cases.mapped_twice();
    cases.third_takes_out();
    cases.all_pages();
    cases.edges();
    cases.text
}

impl Cases {
    fn say(&mut self, line: String) {
        self.text += &line;
        self.text.push('\n');
    }

    fn start(&mut self, title: &str) {
        self.say(title.into());
        self.state = fresh();
    }

    fn give(&mut self, record: [u8; 8]) -> (u8, u32) {
        step(&mut self.state, &record)
    }

    fn number(&mut self, kind: u8, a: u8, b: u8, call: u8) -> u8 {
        self.give([kind, a, b, call, 0, 0, 0, 0]).0
    }

    fn read(&mut self, va: u8) {
        let (number, value) = self.give([1, va, 0, 0, 0, 0, 0, 0]);
        self.say(format!("read {va}\nanswer {number} {value}"));
    }

    fn write(&mut self, va: u8, new: u16) {
        let [low, high] = new.to_le_bytes();
        let (number, value) = self.give([3, va, 0, 0, low, high, 0, 0]);
        self.say(format!("write {va} {new}\nanswer {number} {value}"));
    }

    fn call(&mut self, call: u8, a: u8, b: u8) {
        let asked = self.number(10, a, b, call);
        let acted = self.number(OWN_ACTION[usize::from(call)], a, b, 0);
        let back = self.number(12, 0, 0, 0);
        self.say(format!("call {call} {a} {b}\nanswers {asked} {acted} {back}"));
    }

    fn pin(&mut self, pa: u8) {
        self.call(4, pa, pa % 2);
    }

    fn page(&mut self, page: usize) {
        let bytes = self.state.to_bytes();
        let (memory, mark) = (word(&bytes, MEMORY + 4 * page), bytes[CACHEABLE + page]);
        self.say(format!("page {page} memory {memory} cacheable {mark}"));
    }

    fn set(&mut self, set: usize) {
        let bytes = self.state.to_bytes();
        let line = |i: usize| match bytes[LINE_PAGE + i] {
            held @ 1..=64 => {
                format!(
                    "line {} {} {}",
                    bytes[LINE_ADDRESS + i],
                    held - 1,
                    word(&bytes, LINE + 4 * i)
                )
            }
            _ => "empty".into(),
        };
        let (first, second) = (line(2 * set), line(2 * set + 1));
        self.say(format!("set {set} {first} {second} history {}", bytes[HISTORY + set]));
    }

    fn free(&mut self) {
        let bytes = self.state.to_bytes();
        let free: u32 = bytes[FREE..FREE + 8].iter().map(|byte| byte.count_ones()).sum();
        self.say(format!("free {free}"));
    }

    fn mapped_twice(&mut self) {
        self.start("a page at 0, then at 1 too");
        self.call(4, 1, 0);
        self.call(1, 0, 1);
        self.write(0, 300);
        self.read(0);
        self.read(1);
        self.page(8);
        self.set(0);
        self.call(1, 1, 1);
        self.page(8);
        self.set(0);
        self.read(1);
        self.set(1);
    }

    fn third_takes_out(&mut self) {
        self.start("pages at 0, 8 and 16");
        for (pa, va) in [(1, 0), (2, 8), (3, 16)] {
            self.call(4, pa, 0);
            self.call(1, va, pa);
        }
        self.write(0, 70);
        self.read(0);
        self.read(8);
        self.page(8);
        self.set(0);
        self.read(16);
        self.page(8);
        self.set(0);
    }

    fn all_pages(&mut self) {
        self.start("all pages pinned");
        for guest in 0..4 {
            if guest > 0 {
                let left = self.number(11, 0, 0, 0);
                let there = self.number(8, guest, 0, 0);
                let runs = self.number(12, 0, 0, 0);
                self.say(format!("guest {guest}\nanswers {left} {there} {runs}"));
            }
            (1..15).for_each(|pa| self.pin(pa));
        }
        self.free();
        self.pin(15);
        let there = self.number(8, 2, 0, 0);
        let runs = self.number(12, 0, 0, 0);
        self.say(format!("answers {there} {runs}"));
        self.call(5, 3, 0);
        self.free();
        self.pin(15);
        self.free();
    }

    fn edges(&mut self) {
        self.start("edges of a journal");
        let mut bytes = vec![0; 32784];
        bytes[..8].copy_from_slice(&HEADER);
        let most = 32768;
        let small = [(0, most), (7, most), (8, 0), (15, 0), (16, 8), (16, 7), (23, 8)];
        let large = [(32776, most), (32783, most), (32783, most - 1), (32784, most)];
        for (length, room) in small.into_iter().chain(large) {
            let mut answers = vec![0; room];
            let verdict = match run_journal(&mut self.state, &bytes[..length], &mut answers) {
                Ok(r) => format!("done {} {} {} {}", r.taken, r.accepted, r.refused, r.left_over),
                Err(number) => format!("refused {number}"),
            };
            self.say(format!("journal {length} {room} {verdict}"));
        }
    }
}

fn word(bytes: &[u8], at: usize) -> u32 {
    u32::from_le_bytes([bytes[at], bytes[at + 1], bytes[at + 2], bytes[at + 3]])
}

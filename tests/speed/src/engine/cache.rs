//! Lines, TLB slots and entries: the parts of steps, and what is kept beside the state at each change of an entry.

use super::sizes::{SETS, SLOTS, STEALTH, WAYS};
use super::state::{lead_to, page_at, Engine, Line, Slot};

/// The set of the stealth address; its line is in way 0.
const STEALTH_SET: usize = STEALTH as usize % SETS;

impl<S> Engine<S> {
    fn take_out(&mut self, set: usize, way: usize) {
        let line = &mut self.line[set][way];
        self.memory[page_at(line.page)] = line.value;
        *line = Line::default();
    }

    fn take_out_key(&mut self, va: u8, page: usize) {
        let set = usize::from(va) % SETS;
        let found = self.way_of(set, va, page);
        if let Some(way) = found {
            self.take_out(set, way);
        }
    }

    fn way_of(&self, set: usize, va: u8, page: usize) -> Option<usize> {
        let is_it = |line: &Line| line.address == va && line.page == lead_to(page);
        self.line[set].iter().position(is_it)
    }

    fn enter(&mut self, set: usize, way: usize, va: u8, page: usize) {
        let value = self.memory[page];
        self.line[set][way] = Line { address: va, page: lead_to(page), value };
    }

    /// The way of the line of va and the page, which enters if it is not there.
    fn way_for(&mut self, set: usize, va: u8, page: usize) -> usize {
        if let Some(way) = self.way_of(set, va, page) {
            return way;
        }
        let empty = self.line[set].iter().position(|line| line.page == 0);
        let way = empty.unwrap_or_else(|| {
            let oldest = usize::from(self.history[set]);
            self.take_out(set, oldest);
            oldest
        });
        self.enter(set, way, va, page);
        self.history[set] = 1 - way as u8;
        way
    }

    /// Where the page's value is found by va, after the access.
    pub(super) fn value_at(&mut self, va: u8, page: usize) -> &mut u32 {
        self.slot[usize::from(va) % SLOTS] = Slot { address: va, page: lead_to(page) };
        if self.cacheable[page] {
            let set = usize::from(va) % SETS;
            let way = self.way_for(set, va, page);
            &mut self.line[set][way].value
        } else {
            &mut self.memory[page]
        }
    }

    pub(super) fn load_stealth(&mut self) {
        let lead = self.entry[self.table][usize::from(STEALTH)];
        if lead != 0 {
            self.enter(STEALTH_SET, 0, STEALTH, page_at(lead));
        }
    }

    /// Saves the stealth line, lets the table in force change, and loads the new one's.
    pub(super) fn change_table(&mut self, change: impl FnOnce(&mut Self)) {
        if self.line[STEALTH_SET][0].page != 0 {
            self.take_out(STEALTH_SET, 0);
        }
        change(self);
        let guest = self.active;
        self.table = page_at(self.physical[guest][usize::from(self.current[guest])]);
        self.load_stealth();
        self.slot = [Slot::default(); SLOTS];
    }

    /// The entry at va of the table in force is removed, if there is one, and its line taken out.
    pub(super) fn unmap(&mut self, va: u8) {
        let lead = std::mem::take(&mut self.entry[self.table][usize::from(va)]);
        if lead != 0 {
            let page = page_at(lead);
            self.take_out_key(va, page);
            self.entries[self.table] -= 1;
            self.tables[page][usize::from(va)] -= 1;
            if self.tables[page][usize::from(va)] == 0 {
                self.addresses[page] &= !(1 << va);
            }
        }
        let slot = &mut self.slot[usize::from(va) % SLOTS];
        if slot.address == va {
            *slot = Slot::default();
        }
    }

    /// The table in force, which has no entry at va, maps it to the page.
    pub(super) fn map(&mut self, va: u8, page: usize) {
        self.entry[self.table][usize::from(va)] = lead_to(page);
        self.entries[self.table] += 1;
        self.tables[page][usize::from(va)] += 1;
        self.addresses[page] |= 1 << va;
    }

    /// The page is shared: its lines are taken out, and it is cached no more.
    pub(super) fn share(&mut self, page: usize) {
        for set in 0..SETS {
            for way in 0..WAYS {
                if self.line[set][way].page == lead_to(page) {
                    self.take_out(set, way);
                }
            }
        }
        self.cacheable[page] = false;
    }
}

//! What happens in the cache and in the translation buffer.

use crate::numbers::{Mach, Place, Virt, STEALTH};
use crate::state::{Line, Slot, State};

impl State {
    /// Where the line with this key stands: set and way.
    fn find_line(&self, va: Virt, page: Mach) -> Option<(usize, usize)> {
        let set = va.home();
        let ways = &self.cache[set].ways;
        let way = ways.iter().position(|line| line.key() == Some((va, page)))?;
        Some((set, way))
    }

    /// Takes a line out: its value goes to memory, the history stays.
    fn take_out(&mut self, set: usize, way: usize) {
        let line = std::mem::replace(&mut self.cache[set].ways[way], Line::EMPTY);
        if let Some(page) = line.page.page() {
            self.page_mut(page).memory = line.value;
        }
    }

    pub fn take_out_key(&mut self, va: Virt, page: Mach) {
        if let Some((set, way)) = self.find_line(va, page) {
            self.take_out(set, way);
        }
    }

    /// Takes out every line of the page.
    pub fn take_out_page(&mut self, page: Mach) {
        for set in 0..self.cache.len() {
            for way in 0..2 {
                if self.cache[set].ways[way].page == Place::At(page) {
                    self.take_out(set, way);
                }
            }
        }
    }

    /// Empties set 7 before the table in force changes.
    pub fn save_stealth(&mut self) {
        for way in 0..2 {
            self.take_out(STEALTH.home(), way);
        }
    }

    /// Loads the stealth page, if any, of the table now in force; history stays 0.
    pub fn load_stealth(&mut self, table: Mach) {
        if let Some(page) = self.maps(table, STEALTH) {
            let value = self.page(page).memory;
            self.cache[STEALTH.home()].ways[0] = Line::new(STEALTH, page, value);
        }
    }

    /// The line with this key, brought in from memory on a miss.
    pub fn line_for(&mut self, va: Virt, page: Mach) -> &mut Line {
        let (set, way) = match self.find_line(va, page) {
            Some(found) => found,
            None => self.bring_in(va, page),
        };
        &mut self.cache[set].ways[way]
    }

    fn bring_in(&mut self, va: Virt, page: Mach) -> (usize, usize) {
        let set = va.home();
        let ways = &self.cache[set].ways;
        let empty = ways.iter().position(|line| line.page.is_empty());
        let way = empty.unwrap_or(self.cache[set].history as usize);
        self.take_out(set, way);
        let value = self.page(page).memory;
        self.cache[set].ways[way] = Line::new(va, page, value);
        self.cache[set].history = 1 - way as u8;
        (set, way)
    }

    pub fn remember(&mut self, va: Virt, page: Mach) {
        self.tlb[va.home()] = Slot::new(va, page);
    }

    /// The TLB entry for the address goes, if the slot holds that address.
    pub fn forget(&mut self, va: Virt) {
        let slot = &mut self.tlb[va.home()];
        if slot.address == va.byte() {
            *slot = Slot::EMPTY;
        }
    }

    pub fn forget_all(&mut self) {
        self.tlb = [Slot::EMPTY; 8];
    }
}

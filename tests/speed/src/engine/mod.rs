//! Journals by docs/HOST.md, every kind of record, on an engine that nothing is proved of: how fast such a host can be. Its state is its
//! own and valid from the fresh machine on, so it never tests validity, and what checks ask of all tables is kept up to date beside them.

mod cache;
mod records;
mod search;
pub mod sizes;
mod state;

use ration::{Refusal, Report, WritePolicy, ANSWER, RECORD};
use records::*;
use sizes::*;
use state::*;

pub use search::{BitByBit, Search, TrailingZeros};
pub use state::Engine;

const HEADER: &[u8] = b"RPJ\x01\0\0\0\0";

/// The addresses at which nothing is mapped, a bit for each: the host's, and those of the stealth address's set but itself.
const RESERVED: u64 = {
    let mut reserved = !0 << FIRST_HOST_VA;
    let mut va = STEALTH as usize + SETS;
    while va < FIRST_HOST_VA {
        reserved |= 1 << va;
        va += SETS;
    }
    reserved
};

/// A value, or the number of a refusal.
type Judged = Result<u32, u8>;

fn refuse(when: bool, number: u8) -> Result<(), u8> {
    if when {
        Err(number)
    } else {
        Ok(())
    }
}

fn refuse_reserved(va: u8) -> Result<(), u8> {
    refuse(RESERVED >> va & 1 == 1, 5)
}

impl<S: Search> Engine<S> {
    /// Runs a journal, as `ration::Host::run` does.
    pub fn run(&mut self, journal: &[u8], answers: &mut [u8]) -> Result<Report, Refusal> {
        let records = journal.strip_prefix(HEADER).ok_or(Refusal::Header)?;
        let count = records.len() / RECORD;
        if count > RECORD_LIMIT {
            return Err(Refusal::TooManyRecords);
        }
        let room = answers.get_mut(..count * ANSWER).ok_or(Refusal::AnswerBuffer)?;
        let mut accepted = 0;
        for (bytes, answer) in records.chunks_exact(RECORD).zip(room.chunks_exact_mut(ANSWER)) {
            let judged = self.judge(Record::from_bytes(bytes));
            accepted += u32::from(judged.is_ok());
            let number_and_value = judged.map_or_else(u64::from, |value| u64::from(value) << 32);
            answer.copy_from_slice(&number_and_value.to_le_bytes());
        }
        let taken = count as u32;
        let left_over = (records.len() % RECORD) as u32;
        Ok(Report { taken, accepted, refused: taken - accepted, left_over })
    }

    fn judge(&mut self, record: Record) -> Judged {
        let row = record.row().ok_or(2)?;
        refuse(!row.is_for(self.mode), 3)?;
        if row.serves != CALL_NONE {
            refuse(self.call[self.active] != record.call(row.serves), 4)?;
            self.serve(record)?;
            self.call[self.active] = 0;
            return Ok(0);
        }
        match record.kind() {
            SILENT => {}
            READ | READ_HYPER => return self.access(record.a(), None),
            WRITE | WRITE_HYPER => return self.access(record.a(), Some(record.value())),
            SWITCH => self.switch(usize::from(record.a()))?,
            HCALL => {
                self.call[self.active] = record.asked();
                self.mode = WAITING;
            }
            RET_CTRL => self.mode = WAITING,
            CHMOD => {
                refuse(self.call[self.active] != 0, 4)?;
                self.mode = RUNNING;
            }
            DROP => {
                let call = &mut self.call[usize::from(record.a())];
                refuse(*call == 0, 4)?;
                *call = 0;
            }
            kind => unreachable!("kind {kind} serves a call"),
        }
        Ok(0)
    }

    /// What a call asked for; its call is the pending one.
    fn serve(&mut self, record: Record) -> Result<(), u8> {
        let (a, b) = (record.a(), record.b());
        match record.kind() {
            NEW => self.new_mapping(a, b),
            NEW_SM => self.new_sm(b),
            DEL => self.del(a),
            LSWITCH => self.lswitch(a),
            PIN => self.pin(a, b),
            UNPIN => self.unpin(a),
            kind => unreachable!("kind {kind} serves no call"),
        }
    }

    /// The page to which the table in force maps va.
    fn mapped(&self, va: u8) -> Result<usize, u8> {
        refuse_reserved(va)?;
        let lead = self.entry[self.table][usize::from(va)];
        refuse(lead == 0, 6)?;
        Ok(page_at(lead))
    }

    /// A read, or a write of a value.
    fn access(&mut self, va: u8, written: Option<u32>) -> Judged {
        let page = self.mapped(va)?;
        let place = self.value_at(va, page);
        let Some(value) = written else { return Ok(*place) };
        *place = value;
        if self.policy == WritePolicy::Through {
            self.memory[page] = value;
        }
        Ok(0)
    }

    fn registered(&self, pa: u8) -> Result<usize, u8> {
        let lead = self.physical[self.active][usize::from(pa)];
        refuse(lead == 0, 7)?;
        Ok(page_at(lead))
    }

    fn new_mapping(&mut self, va: u8, pa: u8) -> Result<(), u8> {
        refuse_reserved(va)?;
        refuse(va == STEALTH, 5)?;
        let page = self.registered(pa)?;
        refuse(self.kind[page] != KIND_DATA, 8)?;
        refuse(self.addresses[page] >> STEALTH & 1 == 1, 9)?;
        self.unmap(va);
        self.map(va, page);
        if self.addresses[page] & !(1 << va) != 0 {
            self.share(page);
        }
        Ok(())
    }

    fn new_sm(&mut self, pa: u8) -> Result<(), u8> {
        let page = self.registered(pa)?;
        refuse(self.kind[page] != KIND_DATA, 8)?;
        refuse(!self.cacheable[page] || self.addresses[page] & !(1 << STEALTH) != 0, 9)?;
        refuse(self.entry[self.table][usize::from(STEALTH)] != 0, 10)?;
        self.map(STEALTH, page);
        self.slot[usize::from(STEALTH) % SLOTS] = Slot { address: STEALTH, page: lead_to(page) };
        self.load_stealth();
        Ok(())
    }

    fn del(&mut self, va: u8) -> Result<(), u8> {
        self.mapped(va)?;
        self.unmap(va);
        Ok(())
    }

    fn switch(&mut self, guest: usize) -> Result<(), u8> {
        refuse(self.call[guest] != 0, 4)?;
        self.change_table(|engine| engine.active = guest);
        Ok(())
    }

    fn lswitch(&mut self, pa: u8) -> Result<(), u8> {
        let page = self.registered(pa)?;
        refuse(self.kind[page] != KIND_TABLE, 8)?;
        self.change_table(|engine| engine.current[engine.active] = pa);
        Ok(())
    }

    fn pin(&mut self, pa: u8, pin_kind: u8) -> Result<(), u8> {
        let place = &mut self.physical[self.active][usize::from(pa)];
        refuse(*place != 0, 10)?;
        let page = S::lowest(self.free).ok_or(11)?;
        *place = lead_to(page);
        self.free &= !(1 << page);
        self.owner[page] = OWNER_GUEST + self.active as u8;
        self.kind[page] = KIND_DATA + pin_kind;
        Ok(())
    }

    fn unpin(&mut self, pa: u8) -> Result<(), u8> {
        let page = self.registered(pa)?;
        let in_use = pa == self.current[self.active] || self.entries[page] != 0;
        refuse(in_use || self.addresses[page] != 0, 12)?;
        self.physical[self.active][usize::from(pa)] = 0;
        self.free |= 1 << page;
        self.owner[page] = OWNER_NONE;
        self.kind[page] = KIND_NONE;
        self.cacheable[page] = true;
        self.memory[page] = 0;
        Ok(())
    }
}

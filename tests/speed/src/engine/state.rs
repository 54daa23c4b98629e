//! The engine's state: what docs/STATE.md has, and beside it what is worked out once and not at each check.

use std::marker::PhantomData;

use ration::{WritePolicy, SIZE};

use super::sizes::{CALL_BYTES, GUESTS, HOST_PAGES, PAGES, PHYSICALS, SETS, SLOTS, VIRTUALS, WAYS};

pub const OWNER_NONE: u8 = 0;
pub const OWNER_HOST: u8 = 1;
pub const OWNER_GUEST: u8 = 2;
pub const KIND_NONE: u8 = 0;
pub const KIND_DATA: u8 = 1;
pub const KIND_TABLE: u8 = 2;
pub const WAITING: u8 = 0;
pub const RUNNING: u8 = 1;

/// A page plus one, or 0 for none.
pub type Lead = u8;

/// A call's number, then its arguments, a byte each from the lowest on; 0 for none.
pub type Call = u32;

#[derive(Clone, Copy, Default)]
pub struct Line {
    pub address: u8,
    pub page: Lead,
    pub value: u32,
}

#[derive(Clone, Copy, Default)]
pub struct Slot {
    pub address: u8,
    pub page: Lead,
}

pub struct Engine<S> {
    pub(super) owner: [u8; PAGES],
    pub(super) kind: [u8; PAGES],
    pub(super) cacheable: [bool; PAGES],
    pub(super) entry: [[Lead; VIRTUALS]; PAGES],
    pub(super) physical: [[Lead; PHYSICALS]; GUESTS],
    pub(super) free: u64,
    pub(super) current: [u8; GUESTS],
    pub(super) call: [Call; GUESTS],
    pub(super) active: usize,
    pub(super) mode: u8,
    pub(super) line: [[Line; WAYS]; SETS],
    pub(super) history: [u8; SETS],
    pub(super) slot: [Slot; SLOTS],
    pub(super) memory: [u32; PAGES],
    pub(super) policy: WritePolicy,
    /// The page of the table in force.
    pub(super) table: usize,
    /// How many entries a page has.
    pub(super) entries: [u8; PAGES],
    /// How many tables map an address to a page.
    pub(super) tables: [[u8; VIRTUALS]; PAGES],
    /// The addresses at which some table maps a page, a bit for each.
    pub(super) addresses: [u64; PAGES],
    search: PhantomData<S>,
}

/// The page to which a place leads that is not empty.
pub fn page_at(lead: Lead) -> usize {
    usize::from(lead) - 1
}

pub fn lead_to(page: usize) -> Lead {
    page as Lead + 1
}

impl<S> Engine<S> {
    pub fn fresh_with(policy: WritePolicy) -> Engine<S> {
        let mut engine = Engine {
            owner: [OWNER_NONE; PAGES],
            kind: [KIND_NONE; PAGES],
            cacheable: [true; PAGES],
            entry: [[0; VIRTUALS]; PAGES],
            physical: [[0; PHYSICALS]; GUESTS],
            free: !0 << (GUESTS + HOST_PAGES),
            current: [0; GUESTS],
            call: [0; GUESTS],
            active: 0,
            mode: RUNNING,
            line: [[Line::default(); WAYS]; SETS],
            history: [0; SETS],
            slot: [Slot::default(); SLOTS],
            memory: [0; PAGES],
            policy,
            table: 0,
            entries: [0; PAGES],
            tables: [[0; VIRTUALS]; PAGES],
            addresses: [0; PAGES],
            search: PhantomData,
        };
        for guest in 0..GUESTS {
            engine.owner[guest] = OWNER_GUEST + guest as u8;
            engine.kind[guest] = KIND_TABLE;
            engine.physical[guest][0] = lead_to(guest);
        }
        engine.owner[GUESTS..GUESTS + HOST_PAGES].fill(OWNER_HOST);
        engine.kind[GUESTS..GUESTS + HOST_PAGES].fill(KIND_DATA);
        engine
    }

    /// The bytes of docs/STATE.md.
    pub fn bytes(&self) -> [u8; SIZE] {
        let lines = || self.line.iter().flatten();
        let mut bytes = Vec::with_capacity(SIZE);
        bytes.extend(self.owner);
        bytes.extend(self.kind);
        bytes.extend(self.cacheable.map(u8::from));
        bytes.extend(self.entry.iter().flatten());
        bytes.extend(self.physical.iter().flatten());
        bytes.extend(self.free.to_le_bytes());
        bytes.extend(self.current);
        for place in 0..CALL_BYTES {
            bytes.extend(self.call.map(|call| call.to_le_bytes()[place]));
        }
        bytes.extend([self.active as u8, self.mode]);
        bytes.extend(lines().map(|line| line.address));
        bytes.extend(lines().map(|line| line.page));
        bytes.extend(self.history);
        bytes.extend(self.slot.map(|slot| slot.address));
        bytes.extend(self.slot.map(|slot| slot.page));
        bytes.extend(self.memory.iter().flat_map(|value| value.to_le_bytes()));
        bytes.extend(lines().flat_map(|line| line.value.to_le_bytes()));
        bytes.push(self.policy.number());
        bytes.try_into().expect("docs/STATE.md has so many bytes")
    }
}

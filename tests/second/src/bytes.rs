//! The state as 4,755 bytes (STATE.md), both ways; every byte string is a state.

use crate::numbers::{GuestId, Mach, Phys, Place, Virt};
use crate::state::{fresh, Guest, Kind, Mode, Owner, Page, Pending, Policy, State};

pub const STATE_BYTES: usize = 4755;

/// The fields of docs/STATE.md, in order.
pub const FIELDS: [&str; 20] = [
    "owner",
    "kind",
    "cacheable",
    "entry",
    "physical",
    "free",
    "current",
    "call",
    "callA",
    "callB",
    "active",
    "mode",
    "lineAddress",
    "linePage",
    "history",
    "slotAddress",
    "slotPage",
    "memory",
    "line",
    "policy",
];

/// Field offsets in the order of STATE.md, and the end.
pub const OFFSETS: [usize; 21] = [
    0,
    64,
    128,
    192,
    4288,
    4352,
    4360,
    4364,
    4368,
    4372,
    4376,
    4377,
    4378,
    4394,
    4410,
    4418,
    4426,
    4434,
    4690,
    4754,
    STATE_BYTES,
];

impl Owner {
    pub fn from_byte(byte: u8) -> Owner {
        match byte {
            0 => Owner::Nobody,
            1 => Owner::Host,
            _ => GuestId::new(byte - 2).map_or(Owner::Odd(byte), Owner::Guest),
        }
    }

    pub fn byte(self) -> u8 {
        match self {
            Owner::Nobody => 0,
            Owner::Host => 1,
            Owner::Guest(guest) => 2 + guest.byte(),
            Owner::Odd(byte) => byte,
        }
    }
}

impl Kind {
    pub fn from_byte(byte: u8) -> Kind {
        match byte {
            0 => Kind::None,
            1 => Kind::Data,
            2 => Kind::Table,
            _ => Kind::Odd(byte),
        }
    }

    pub fn byte(self) -> u8 {
        match self {
            Kind::None => 0,
            Kind::Data => 1,
            Kind::Table => 2,
            Kind::Odd(byte) => byte,
        }
    }
}

impl Mode {
    pub fn from_byte(byte: u8) -> Mode {
        match byte {
            0 => Mode::Waiting,
            1 => Mode::Running,
            _ => Mode::Odd(byte),
        }
    }

    pub fn byte(self) -> u8 {
        match self {
            Mode::Waiting => 0,
            Mode::Running => 1,
            Mode::Odd(byte) => byte,
        }
    }
}

impl Policy {
    pub fn from_byte(byte: u8) -> Policy {
        match byte {
            0 => Policy::WriteBack,
            1 => Policy::WriteThrough,
            _ => Policy::Odd(byte),
        }
    }

    pub fn byte(self) -> u8 {
        match self {
            Policy::WriteBack => 0,
            Policy::WriteThrough => 1,
            Policy::Odd(byte) => byte,
        }
    }
}

/// Hands out the bytes of one field after the other.
struct Fields<'a> {
    bytes: &'a [u8],
    next: usize,
}

impl<'a> Fields<'a> {
    fn take(&mut self) -> &'a [u8] {
        let field = &self.bytes[OFFSETS[self.next]..OFFSETS[self.next + 1]];
        self.next += 1;
        field
    }

    fn take_words(&mut self) -> Vec<u32> {
        let words = self.take().chunks_exact(4);
        words.map(|word| u32::from_le_bytes(word.try_into().unwrap())).collect()
    }
}

impl State {
    /// Any 4,755 bytes make a state; another length is the caller's mistake.
    pub fn from_bytes(bytes: &[u8]) -> State {
        assert_eq!(bytes.len(), STATE_BYTES, "a state has {STATE_BYTES} bytes");
        let mut fields = Fields { bytes, next: 0 };
        let mut state = fresh();
        state.read_pages(&mut fields);
        state.read_guests(&mut fields);
        state.active = fields.take()[0];
        state.mode = Mode::from_byte(fields.take()[0]);
        state.read_buffers(&mut fields);
        for (page, value) in state.pages.iter_mut().zip(fields.take_words()) {
            page.memory = value;
        }
        for (i, value) in fields.take_words().into_iter().enumerate() {
            state.cache[i / 2].ways[i % 2].value = value;
        }
        state.policy = Policy::from_byte(fields.take()[0]);
        state
    }

    fn read_pages(&mut self, fields: &mut Fields) {
        let (owners, kinds, marks, entries) =
            (fields.take(), fields.take(), fields.take(), fields.take());
        self.pages = std::array::from_fn(|p| Page {
            owner: Owner::from_byte(owners[p]),
            kind: Kind::from_byte(kinds[p]),
            mark: marks[p],
            memory: 0,
            entries: std::array::from_fn(|va| Place::from_byte(entries[Virt::COUNT * p + va])),
        });
    }

    fn read_guests(&mut self, fields: &mut Fields) {
        let physical = fields.take();
        self.free = u64::from_le_bytes(fields.take().try_into().unwrap());
        let (current, number, a, b) = (fields.take(), fields.take(), fields.take(), fields.take());
        self.guests = std::array::from_fn(|g| Guest {
            physical: std::array::from_fn(|pa| Place::from_byte(physical[Phys::COUNT * g + pa])),
            current: current[g],
            pending: Pending { number: number[g], a: a[g], b: b[g] },
        });
    }

    fn read_buffers(&mut self, fields: &mut Fields) {
        let (addresses, pages, histories) = (fields.take(), fields.take(), fields.take());
        for i in 0..addresses.len() {
            let line = &mut self.cache[i / 2].ways[i % 2];
            line.address = addresses[i];
            line.page = Place::from_byte(pages[i]);
        }
        for (set, history) in self.cache.iter_mut().zip(histories) {
            set.history = *history;
        }
        let (addresses, pages) = (fields.take(), fields.take());
        for (i, slot) in self.tlb.iter_mut().enumerate() {
            slot.address = addresses[i];
            slot.page = Place::from_byte(pages[i]);
        }
    }

    pub fn to_bytes(&self) -> Vec<u8> {
        let mut out = Vec::with_capacity(STATE_BYTES);
        let (pages, guests) = (&self.pages, &self.guests);
        out.extend(pages.iter().map(|page| page.owner.byte()));
        out.extend(pages.iter().map(|page| page.kind.byte()));
        out.extend(pages.iter().map(|page| page.mark));
        out.extend(pages.iter().flat_map(|page| page.entries.iter().map(|place| place.byte())));
        out.extend(guests.iter().flat_map(|guest| guest.physical.iter().map(|place| place.byte())));
        out.extend(self.free.to_le_bytes());
        out.extend(guests.iter().map(|guest| guest.current));
        out.extend(guests.iter().map(|guest| guest.pending.number));
        out.extend(guests.iter().map(|guest| guest.pending.a));
        out.extend(guests.iter().map(|guest| guest.pending.b));
        out.extend([self.active, self.mode.byte()]);
        out.extend(self.lines().map(|line| line.address));
        out.extend(self.lines().map(|line| line.page.byte()));
        out.extend(self.cache.iter().map(|set| set.history));
        out.extend(self.tlb.iter().map(|slot| slot.address));
        out.extend(self.tlb.iter().map(|slot| slot.page.byte()));
        out.extend(pages.iter().flat_map(|page| page.memory.to_le_bytes()));
        out.extend(self.lines().flat_map(|line| line.value.to_le_bytes()));
        out.push(self.policy.byte());
        debug_assert_eq!(out.len(), STATE_BYTES);
        debug_assert_eq!(pages.len(), Mach::COUNT);
        out
    }
}

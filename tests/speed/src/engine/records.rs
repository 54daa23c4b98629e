//! docs/HOST.md, "Records and answers": kinds and calls as tables, and a record in range.

use super::sizes::{CALLS, GUESTS, KINDS, PHYSICALS, STEALTH, VIRTUALS};
use super::state::{Call, RUNNING, WAITING};

pub const SILENT: u8 = 0;
pub const READ: u8 = 1;
pub const READ_HYPER: u8 = 2;
pub const WRITE: u8 = 3;
pub const WRITE_HYPER: u8 = 4;
pub const NEW: u8 = 5;
pub const NEW_SM: u8 = 6;
pub const DEL: u8 = 7;
pub const SWITCH: u8 = 8;
pub const LSWITCH: u8 = 9;
pub const HCALL: u8 = 10;
pub const RET_CTRL: u8 = 11;
pub const CHMOD: u8 = 12;
pub const PIN: u8 = 13;
pub const UNPIN: u8 = 14;
pub const DROP: u8 = 15;

pub const CALL_NONE: u8 = 0;
const CALL_NEW: u8 = 1;
const CALL_DEL: u8 = 2;
const CALL_LSWITCH: u8 = 3;
const CALL_PIN: u8 = 4;
const CALL_UNPIN: u8 = 5;

/// No mode: a kind that may be done in both.
const ANY: u8 = 2;

/// What a record of a kind may hold, and what it needs.
pub struct Row {
    mode: u8,
    /// The call that it serves.
    pub serves: u8,
    low_a: u8,
    /// How far a may be above its lowest.
    span_a: u8,
    high_b: u8,
    /// The bytes that are 0 in every record of the kind.
    unused: u64,
}

const CALL_BYTE: u64 = 0xFF << 24;
const VALUE: u64 = 0xFFFF_FFFF << 32;
const VA: u8 = VIRTUALS as u8 - 1;
const PA: u8 = PHYSICALS as u8 - 1;
const GUEST: u8 = GUESTS as u8 - 1;
const PIN_KIND: u8 = 1;

const fn row(mode: u8, serves: u8, span_a: u8, high_b: u8) -> Row {
    Row { mode, serves, low_a: 0, span_a, high_b, unused: CALL_BYTE | VALUE }
}

/// By the kind.
const ROWS: [Row; KINDS] = [
    row(ANY, CALL_NONE, 0, 0),                                   // silent
    row(RUNNING, CALL_NONE, VA, 0),                              // read
    row(WAITING, CALL_NONE, VA, 0),                              // read_hyper
    Row { unused: CALL_BYTE, ..row(RUNNING, CALL_NONE, VA, 0) }, // write
    Row { unused: CALL_BYTE, ..row(WAITING, CALL_NONE, VA, 0) }, // write_hyper
    row(WAITING, CALL_NEW, VA, PA),                              // new
    Row { low_a: STEALTH, ..row(WAITING, CALL_NEW, 0, PA) },     // new_sm
    row(WAITING, CALL_DEL, VA, 0),                               // del
    row(WAITING, CALL_NONE, GUEST, 0),                           // switch
    row(WAITING, CALL_LSWITCH, PA, 0),                           // lswitch
    Row { unused: VALUE, ..row(RUNNING, CALL_NONE, VA, PA) },    // hcall
    row(RUNNING, CALL_NONE, 0, 0),                               // ret_ctrl
    row(WAITING, CALL_NONE, 0, 0),                               // chmod
    row(WAITING, CALL_PIN, PA, PIN_KIND),                        // pin
    row(WAITING, CALL_UNPIN, PA, 0),                             // unpin
    row(WAITING, CALL_NONE, GUEST, 0),                           // drop
];

/// The highest a and b of each call, by its number.
const HIGHEST: [(u8, u8); CALLS] = [(0, 0), (VA, PA), (VA, 0), (PA, 0), (PA, PIN_KIND), (PA, 0)];

/// A record's eight bytes, the first one lowest.
#[derive(Clone, Copy)]
pub struct Record(u64);

impl Record {
    pub fn from_bytes(bytes: &[u8]) -> Record {
        Record(u64::from_le_bytes(bytes.try_into().expect("a record's bytes")))
    }

    pub fn kind(self) -> u8 {
        self.0 as u8
    }

    pub fn a(self) -> u8 {
        (self.0 >> 8) as u8
    }

    pub fn b(self) -> u8 {
        (self.0 >> 16) as u8
    }

    fn call_byte(self) -> u8 {
        (self.0 >> 24) as u8
    }

    pub fn value(self) -> u32 {
        (self.0 >> 32) as u32
    }

    /// The call with this number and the record's arguments.
    pub fn call(self, number: u8) -> Call {
        u32::from_le_bytes([number, self.a(), self.b(), 0])
    }

    /// What hcall asks for.
    pub fn asked(self) -> Call {
        self.call(self.call_byte())
    }

    /// Its kind's row; `None` for what is no record.
    pub fn row(self) -> Option<&'static Row> {
        let row = ROWS.get(usize::from(self.kind()))?;
        let a_fits = self.a().wrapping_sub(row.low_a) <= row.span_a;
        let fits = a_fits & (self.b() <= row.high_b) & (self.0 & row.unused == 0);
        (fits && (self.kind() != HCALL || self.call_fits())).then_some(row)
    }

    fn call_fits(self) -> bool {
        let highest = HIGHEST.get(usize::from(self.call_byte()));
        highest.is_some_and(|&(a, b)| self.a() <= a && self.b() <= b)
    }
}

impl Row {
    pub fn is_for(&self, mode: u8) -> bool {
        self.mode == ANY || self.mode == mode
    }
}

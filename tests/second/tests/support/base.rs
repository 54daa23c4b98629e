//! One machine in use, to be damaged at chosen bytes.

use second::Policy;

use super::Machine;

pub const OWNER: usize = 0;
pub const KIND: usize = 64;
pub const MARK: usize = 128;
pub const ENTRY: usize = 192;
pub const PHYSICAL: usize = 4288;
pub const FREE: usize = 4352;
pub const CURRENT: usize = 4360;
pub const CALL: usize = 4364;
pub const CALL_A: usize = 4368;
pub const CALL_B: usize = 4372;
pub const ACTIVE: usize = 4376;
pub const MODE: usize = 4377;
pub const LINE: usize = 4378;
pub const LINE_PAGE: usize = 4394;
pub const HISTORY: usize = 4410;
pub const SLOT: usize = 4418;
pub const SLOT_PAGE: usize = 4426;
pub const MEMORY: usize = 4434;
pub const LINE_VALUE: usize = 4690;
pub const POLICY: usize = 4754;

pub fn entry(table: usize, va: usize) -> usize {
    ENTRY + 64 * table + va
}

/// Guest 0: page 8 at 0 (dirty line), 9 at 7, 10 at 1 and 9, table 11, 12 unmapped.
/// Guest 1: page 13 at 7, 14 at 8 (line). Guest 0 runs, with a TLB entry for 0.
pub fn base(policy: Policy) -> Vec<u8> {
    let mut m = Machine::started(policy);
    for (pa, kind) in [(1, 0), (2, 0), (3, 0), (4, 1), (5, 0)] {
        m.served(4, pa, kind);
    }
    for (va, pa) in [(0, 1), (7, 2), (1, 3), (9, 3)] {
        m.served(1, va, pa);
    }
    m.write(0, 5);
    m.go_to(1);
    for (pa, va) in [(1, 7), (2, 8)] {
        m.served(4, pa, 0);
        m.served(1, va, pa);
    }
    m.read(8);
    m.go_to(0);
    assert_eq!(m.read(0), 5);
    assert_eq!(m.line(7, 0), Some((7, 9, 0)));
    assert_eq!((m.line(0, 0), m.line(0, 1)), (Some((0, 8, 5)), Some((8, 14, 0))));
    m.0.to_bytes()
}

//! What can be asked of a host: actions by their names, the records that they are, and journals of them.

use std::fmt;

/// The bytes of a record.
pub const RECORD: usize = 8;
/// The bytes of a journal's header.
pub const HEADER: usize = 8;

/// A virtual address: what a guest reads and writes. The host refuses one past 63 ([`crate::Refusal::Record`]).
#[derive(Clone, Copy, Debug, PartialEq, Eq, Hash)]
pub struct Va(pub u8);

impl Va {
    /// The address of a table's stealth page.
    pub const STEALTH: Va = Va(7);
}

/// A physical address: which of its own pages a guest means. The host refuses one past 15 ([`crate::Refusal::Record`]).
#[derive(Clone, Copy, Debug, PartialEq, Eq, Hash)]
pub struct Pa(pub u8);

/// A guest. The host refuses one past 3 ([`crate::Refusal::Record`]).
#[derive(Clone, Copy, Debug, PartialEq, Eq, Hash)]
pub struct Guest(pub u8);

/// The kind of page that a pin asks for.
#[derive(Clone, Copy, Debug, PartialEq, Eq, Hash)]
pub enum PinKind {
    /// A page to be mapped, read and written.
    Data,
    /// A table of the guest's virtual addresses.
    Table,
}

impl PinKind {
    fn number(self) -> u8 {
        match self {
            PinKind::Data => 0,
            PinKind::Table => 1,
        }
    }
}

/// What a guest asks the host for, with the arguments of the action that does it.
#[derive(Clone, Copy, Debug, PartialEq, Eq, Hash)]
pub enum Call {
    /// Nothing: the host only gets control.
    None,
    /// [`Action::New`], or [`Action::NewSm`] where the address is [`Va::STEALTH`].
    New(Va, Pa),
    /// [`Action::Del`].
    Del(Va),
    /// [`Action::Lswitch`].
    Lswitch(Pa),
    /// [`Action::Pin`].
    Pin(Pa, PinKind),
    /// [`Action::Unpin`].
    Unpin(Pa),
}

impl Call {
    /// The call's number and its two arguments.
    fn bytes(self) -> [u8; 3] {
        match self {
            Call::None => [0, 0, 0],
            Call::New(va, pa) => [1, va.0, pa.0],
            Call::Del(va) => [2, va.0, 0],
            Call::Lswitch(pa) => [3, pa.0, 0],
            Call::Pin(pa, kind) => [4, pa.0, kind.number()],
            Call::Unpin(pa) => [5, pa.0, 0],
        }
    }
}

/// An action: a guest's, while it runs, or the host's, while the active guest waits.
#[derive(Clone, Copy, Debug, PartialEq, Eq, Hash)]
pub enum Action {
    /// Nothing, whoever has control.
    Silent,
    /// The guest reads; the answer has the value.
    Read(Va),
    /// The host reads at an address of the active guest; the answer has the value.
    ReadHyper(Va),
    /// The guest writes a value.
    Write(Va, u32),
    /// The host writes a value at an address of the active guest.
    WriteHyper(Va, u32),
    /// The host maps an address to a data page, as the active guest asked.
    New(Va, Pa),
    /// The host maps the stealth address to a data page, as the active guest asked by [`Call::New`].
    NewSm(Pa),
    /// The host unmaps an address that the current table maps, as the active guest asked.
    Del(Va),
    /// The host makes a guest the active one, if it has no call; it keeps control.
    Switch(Guest),
    /// The host makes a table the current one, as the active guest asked.
    Lswitch(Pa),
    /// The guest asks for something and gives control to the host.
    Hcall(Call),
    /// The guest gives control to the host.
    RetCtrl,
    /// The host lets the active guest run, if it has no call.
    Chmod,
    /// The host gives a free page, as the active guest asked.
    Pin(Pa, PinKind),
    /// The host takes a page back, as the active guest asked.
    Unpin(Pa),
    /// The host declines what a guest asked for, active or not, and keeps control: the guest's call is cleared, and nothing else
    /// changes. Refused with [`Refusal::Call`](crate::Refusal::Call) if the guest has no call. A guest whose call is neither done nor
    /// declined does not run; with this, [`Action::Switch`] and [`Action::Chmod`] any guest does, whatever it asked for.
    Drop(Guest),
}

impl Action {
    /// The record that the action is; bytes that it does not use are zeros.
    pub fn record(self) -> [u8; RECORD] {
        let (kind, a, b) = match self {
            Action::Silent => (0, 0, 0),
            Action::Read(va) => (1, va.0, 0),
            Action::ReadHyper(va) => (2, va.0, 0),
            Action::Write(va, _) => (3, va.0, 0),
            Action::WriteHyper(va, _) => (4, va.0, 0),
            Action::New(va, pa) => (5, va.0, pa.0),
            Action::NewSm(pa) => (6, Va::STEALTH.0, pa.0),
            Action::Del(va) => (7, va.0, 0),
            Action::Switch(guest) => (8, guest.0, 0),
            Action::Lswitch(pa) => (9, pa.0, 0),
            Action::Hcall(call) => {
                let [number, a, b] = call.bytes();
                return [10, a, b, number, 0, 0, 0, 0];
            }
            Action::RetCtrl => (11, 0, 0),
            Action::Chmod => (12, 0, 0),
            Action::Pin(pa, page) => (13, pa.0, page.number()),
            Action::Unpin(pa) => (14, pa.0, 0),
            Action::Drop(guest) => (15, guest.0, 0),
        };
        let value = match self {
            Action::Write(_, value) | Action::WriteHyper(_, value) => value.to_le_bytes(),
            _ => [0; 4],
        };
        [kind, a, b, 0, value[0], value[1], value[2], value[3]]
    }
}

/// The journal of these actions: the header, then their records. A host runs at most 4,096 of them.
pub fn journal(actions: &[Action]) -> Vec<u8> {
    let header: [u8; HEADER] = *b"RPJ\x01\0\0\0\0";
    let records = actions.iter().flat_map(|action| action.record());
    header.into_iter().chain(records).collect()
}

impl fmt::Display for Va {
    fn fmt(&self, f: &mut fmt::Formatter) -> fmt::Result {
        self.0.fmt(f)
    }
}

impl fmt::Display for Pa {
    fn fmt(&self, f: &mut fmt::Formatter) -> fmt::Result {
        self.0.fmt(f)
    }
}

impl fmt::Display for Guest {
    fn fmt(&self, f: &mut fmt::Formatter) -> fmt::Result {
        self.0.fmt(f)
    }
}

impl fmt::Display for PinKind {
    fn fmt(&self, f: &mut fmt::Formatter) -> fmt::Result {
        f.write_str(match self {
            PinKind::Data => "data",
            PinKind::Table => "table",
        })
    }
}

impl fmt::Display for Call {
    fn fmt(&self, f: &mut fmt::Formatter) -> fmt::Result {
        match self {
            Call::None => f.write_str("none"),
            Call::New(va, pa) => write!(f, "new {va} {pa}"),
            Call::Del(va) => write!(f, "del {va}"),
            Call::Lswitch(pa) => write!(f, "lswitch {pa}"),
            Call::Pin(pa, kind) => write!(f, "pin {pa} {kind}"),
            Call::Unpin(pa) => write!(f, "unpin {pa}"),
        }
    }
}

/// As the rules write it: `write 0 300`, `hcall pin 1 data`, `new_sm 1`.
impl fmt::Display for Action {
    fn fmt(&self, f: &mut fmt::Formatter) -> fmt::Result {
        match self {
            Action::Silent => f.write_str("silent"),
            Action::Read(va) => write!(f, "read {va}"),
            Action::ReadHyper(va) => write!(f, "read_hyper {va}"),
            Action::Write(va, value) => write!(f, "write {va} {value}"),
            Action::WriteHyper(va, value) => write!(f, "write_hyper {va} {value}"),
            Action::New(va, pa) => write!(f, "new {va} {pa}"),
            Action::NewSm(pa) => write!(f, "new_sm {pa}"),
            Action::Del(va) => write!(f, "del {va}"),
            Action::Switch(guest) => write!(f, "switch {guest}"),
            Action::Lswitch(pa) => write!(f, "lswitch {pa}"),
            Action::Hcall(call) => write!(f, "hcall {call}"),
            Action::RetCtrl => f.write_str("ret_ctrl"),
            Action::Chmod => f.write_str("chmod"),
            Action::Pin(pa, kind) => write!(f, "pin {pa} {kind}"),
            Action::Unpin(pa) => write!(f, "unpin {pa}"),
            Action::Drop(guest) => write!(f, "drop {guest}"),
        }
    }
}

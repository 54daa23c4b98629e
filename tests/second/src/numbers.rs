//! Virtual, physical, machine and guest numbers: four types, always in range.

macro_rules! number {
    ($(#[$doc:meta])* $name:ident, $limit:expr) => {
        $(#[$doc])*
        #[derive(Clone, Copy, PartialEq, Eq, PartialOrd, Ord, Debug)]
        pub struct $name(u8);

        impl $name {
            pub const COUNT: usize = $limit;

            /// None for a number out of range: it leads nowhere.
            pub fn new(number: u8) -> Option<Self> {
                ((number as usize) < Self::COUNT).then_some(Self(number))
            }

            pub fn byte(self) -> u8 {
                self.0
            }

            pub fn index(self) -> usize {
                self.0 as usize
            }

            pub fn all() -> impl DoubleEndedIterator<Item = Self> {
                (0..Self::COUNT as u8).map(Self)
            }
        }
    };
}

number!(
    /// A virtual address.
    Virt,
    64
);
number!(
    /// A physical address of some guest.
    Phys,
    16
);
number!(
    /// A machine page.
    Mach,
    64
);
number!(
    /// A guest.
    GuestId,
    4
);

/// The stealth address.
pub const STEALTH: Virt = Virt(7);

const FIRST_HOST_ADDRESS: u8 = 48;

impl Virt {
    /// The host's, or the stealth colour without being the stealth address.
    pub fn is_reserved(self) -> bool {
        self.0 >= FIRST_HOST_ADDRESS || (self.home() == STEALTH.home() && self != STEALTH)
    }

    /// The cache set and the TLB slot that the address belongs to.
    pub fn home(self) -> usize {
        self.index() % 8
    }

    pub fn bit(self) -> u64 {
        1 << self.0
    }
}

impl Mach {
    pub fn is_host(self) -> bool {
        (4..8).contains(&self.0)
    }

    pub fn bit(self) -> u64 {
        1 << self.0
    }
}

/// A place that holds a page or none: a physical address, an entry, a line, a slot.
#[derive(Clone, Copy, PartialEq, Eq, Debug)]
pub enum Place {
    Empty,
    At(Mach),
    /// Not empty, but past the last page; the byte is kept.
    Nowhere(u8),
}

impl Place {
    pub fn from_byte(byte: u8) -> Place {
        match byte.checked_sub(1) {
            None => Place::Empty,
            Some(page) => Mach::new(page).map_or(Place::Nowhere(byte), Place::At),
        }
    }

    pub fn byte(self) -> u8 {
        match self {
            Place::Empty => 0,
            Place::At(page) => page.byte() + 1,
            Place::Nowhere(byte) => byte,
        }
    }

    pub fn page(self) -> Option<Mach> {
        match self {
            Place::At(page) => Some(page),
            _ => None,
        }
    }

    pub fn is_empty(self) -> bool {
        self == Place::Empty
    }

    pub fn leads_nowhere(self) -> bool {
        matches!(self, Place::Nowhere(_))
    }
}

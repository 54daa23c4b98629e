//! The write policy of a host, by its names.

use std::fmt;

/// When what is written to a page in the cache reaches memory. No action changes a host's policy, and from the fresh machine on the
/// answers to the same actions are the same under both.
#[derive(Clone, Copy, Debug, PartialEq, Eq, Hash)]
pub enum WritePolicy {
    /// Write-back: when its line is taken out of the cache.
    Back,
    /// Write-through: at once.
    Through,
}

impl WritePolicy {
    /// Both, in the order of the numbers.
    pub const ALL: [WritePolicy; 2] = [WritePolicy::Back, WritePolicy::Through];

    /// The policy of a number; `None` for a number of no policy.
    pub fn from_number(number: u8) -> Option<WritePolicy> {
        WritePolicy::ALL.into_iter().find(|policy| policy.number() == number)
    }

    /// Its number, as the rules have it.
    pub fn number(self) -> u8 {
        match self {
            WritePolicy::Back => 0,
            WritePolicy::Through => 1,
        }
    }
}

/// `write-back` or `write-through`.
impl fmt::Display for WritePolicy {
    fn fmt(&self, f: &mut fmt::Formatter) -> fmt::Result {
        f.write_str(match self {
            WritePolicy::Back => "write-back",
            WritePolicy::Through => "write-through",
        })
    }
}

//! The versions of an image (docs/IMAGE.md).

use second::{image_of, old_image_of, State};
use second::{IMAGE_BYTES, IMAGE_HEADER, OLD_BYTES, OLD_HEADER};

#[derive(Clone, Copy, PartialEq, Eq, PartialOrd, Ord, Debug)]
pub enum Version {
    /// Without a policy, and read only.
    One,
    Two,
}

impl Version {
    pub const BOTH: [Version; 2] = [Version::One, Version::Two];

    pub fn header(self) -> [u8; 5] {
        match self {
            Version::One => OLD_HEADER,
            Version::Two => IMAGE_HEADER,
        }
    }

    pub fn bytes(self) -> usize {
        match self {
            Version::One => OLD_BYTES,
            Version::Two => IMAGE_BYTES,
        }
    }

    /// That of an image; None for what is none.
    pub fn of(image: &[u8]) -> Option<Version> {
        let right = |v: &Version| image.starts_with(&v.header()) && image.len() == v.bytes();
        Version::BOTH.into_iter().find(right)
    }

    pub fn image_of(self, state: &State) -> Vec<u8> {
        match self {
            Version::One => old_image_of(state),
            Version::Two => image_of(state),
        }
    }

    /// The state in the fields of an image of at least this length, whatever its header; version 1 is write-back.
    pub fn held(self, image: &[u8]) -> Option<State> {
        let mut fields = image.get(self.header().len()..self.bytes())?.to_vec();
        fields.resize(second::STATE_BYTES, 0);
        Some(State::from_bytes(&fields))
    }
}

/// An image of version 2 as version 1 would have it.
pub fn older(image: &[u8]) -> Vec<u8> {
    [&OLD_HEADER, &image[OLD_HEADER.len()..OLD_BYTES]].concat()
}

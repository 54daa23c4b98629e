//! Images (docs/IMAGE.md): a whole state as bytes, opened, loaded and saved. Err is a refusal, which changes nothing.

use crate::bytes::STATE_BYTES;
use crate::rules::valid;
use crate::state::{Policy, State};

/// The mark, and the version that is written, 2 as 16 bits low byte first.
pub const IMAGE_HEADER: [u8; 5] = *b"RPS\x02\x00";

pub const IMAGE_BYTES: usize = IMAGE_HEADER.len() + STATE_BYTES;

/// Version 1, which is read still, and has all fields but the last, the policy.
pub const OLD_HEADER: [u8; 5] = *b"RPS\x01\x00";

pub const OLD_BYTES: usize = IMAGE_BYTES - 1;

const INVALID_STATE: u8 = 1;
const NO_IMAGE: u8 = 16;

/// Of any state, also of one that save refuses.
pub fn image_of(state: &State) -> Vec<u8> {
    [&IMAGE_HEADER[..], &state.to_bytes()].concat()
}

/// As version 1 had it: whatever the policy, it is not in there.
pub fn old_image_of(state: &State) -> Vec<u8> {
    let mut image = [&OLD_HEADER[..], &state.to_bytes()].concat();
    image.truncate(OLD_BYTES);
    image
}

fn held(image: &[u8]) -> Result<State, u8> {
    let fields = match (image.strip_prefix(&IMAGE_HEADER), image.strip_prefix(&OLD_HEADER)) {
        (Some(fields), _) => fields.to_vec(),
        (_, Some(fields)) => [fields, &[Policy::WriteBack.byte()]].concat(),
        _ => return Err(NO_IMAGE),
    };
    (fields.len() == STATE_BYTES).then(|| State::from_bytes(&fields)).ok_or(NO_IMAGE)
}

pub fn open(state: &mut State, image: &[u8]) -> Result<(), u8> {
    *state = held(image)?;
    Ok(())
}

pub fn load(state: &mut State, image: &[u8]) -> Result<(), u8> {
    let held = held(image)?;
    if !valid(&held) {
        return Err(INVALID_STATE);
    }
    *state = held;
    Ok(())
}

pub fn save(state: &State, buffer: &mut [u8]) -> Result<(), u8> {
    if !valid(state) {
        return Err(INVALID_STATE);
    }
    if buffer.len() != IMAGE_BYTES {
        return Err(NO_IMAGE);
    }
    buffer.copy_from_slice(&image_of(state));
    Ok(())
}

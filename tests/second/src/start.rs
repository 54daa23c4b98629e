//! What a host starts from: the fresh machine of a policy, or an image.

use crate::image::load;
use crate::program::Ended;
use crate::rules::valid;
use crate::state::{fresh_with, Policy, State};

/// Starts a host with a policy, whatever it was before. Err is a refusal, which changes nothing: a host with it would not be valid.
pub fn start(state: &mut State, policy: u8) -> Result<(), u8> {
    let started = fresh_with(Policy::from_byte(policy));
    if !valid(&started) {
        return Err(1);
    }
    *state = started;
    Ok(())
}

/// What the program is told to start from.
#[derive(Clone, Copy, Default)]
pub struct Start<'a> {
    /// The image of `--from`.
    pub from: Option<&'a [u8]>,
    /// `--write-through`.
    pub through: bool,
}

impl<'a> Start<'a> {
    pub fn image(image: &'a [u8]) -> Start<'a> {
        Start { from: Some(image), through: false }
    }

    /// The same with `--write-through`.
    pub fn through(self) -> Start<'a> {
        Start { through: true, ..self }
    }

    /// Err is how the program ends where it has no state to start from: the image is judged first, and then its policy.
    pub fn state(self) -> Result<State, Ended> {
        let policy = if self.through { Policy::WriteThrough } else { Policy::WriteBack };
        let mut state = fresh_with(policy);
        self.from.map_or(Ok(()), |image| load(&mut state, image)).map_err(Ended::refused)?;
        match self.through && !state.writes_through() {
            true => Err(Ended::wrong_use()),
            false => Ok(state),
        }
    }
}

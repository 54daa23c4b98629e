//! `--check`: what the program prints of an image, and its status.

use std::fmt::Write;

use crate::broken::{first_broken, Judged};
use crate::image::open;
use crate::program::Ended;
use crate::rules::RULES;
use crate::state::{fresh, State};

/// Any bytes of a file.
pub fn check(image: &[u8]) -> Ended {
    let mut state = fresh();
    match open(&mut state, image) {
        Ok(()) => checked(&state),
        Err(number) => Ended::refused(number),
    }
}

/// Every rule, whatever is said of the others.
fn checked(state: &State) -> Ended {
    let (mut text, mut status) = (String::new(), 0);
    for rule in 1..=RULES as u8 {
        match first_broken(state, rule) {
            Judged::Broken(broken) => {
                let _ = writeln!(text, "{rule} broken {}", broken.place);
                status = 1;
            }
            _ => {
                let _ = writeln!(text, "{rule} holds");
            }
        }
    }
    Ended { text, status, saved: None }
}

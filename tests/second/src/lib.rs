//! A second, independent implementation of the ration host.
//!
//! Written from the rules and their readings, as they stood before docs/HOST.md had them (docs/DECISIONS.md), and from docs/STATE.md and
//! docs/RULES.md alone, for comparison with another implementation; drop, 6 of del, journals in pieces and
//! the write policy from docs/HOST.md, images from it and docs/IMAGE.md; the first broken place of a rule, and the
//! text of `--check`, from docs/HOST.md, "Checking", and the parts, places and words of docs/RULES.md; what is
//! hidden of a guest and what is seen of a run, from docs/HOST.md, "Secrecy".

pub mod broken;
pub mod bytes;
pub mod cache;
pub mod cases;
pub mod check;
pub mod checks;
pub mod damage;
pub mod gen;
pub mod hex;
pub mod image;
pub mod journal;
pub mod numbers;
pub mod pieces;
pub mod program;
pub mod record;
pub mod rng;
pub mod rules;
pub mod secrecy;
pub mod start;
pub mod state;
pub mod step;
pub mod stream;

pub use broken::{first_broken, Broken, Judged, Where};
pub use bytes::STATE_BYTES;
pub use check::check;
pub use image::{image_of, old_image_of, IMAGE_BYTES, IMAGE_HEADER, OLD_BYTES, OLD_HEADER};
pub use journal::{run_journal, Report, HEADER};
pub use numbers::{GuestId, Mach, Phys, Place, Virt, STEALTH};
pub use pieces::{begin, feed, Fed, Kept, KEPT};
pub use program::{program, program_output};
pub use record::{decode, encode, Action, Call};
pub use rules::{rules, valid, RULES};
pub use start::{start, Start};
pub use state::{fresh, fresh_with, Policy, State};
pub use step::step;
pub use stream::{streamed, Stream};

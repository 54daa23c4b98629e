//! The ration host: a state that owns its bytes, actions and answers by their names, and the proved functions over them.
//!
//! `docs/HOST.md` of the repository has the rules: what each [`Action`] does, and when each [`Refusal`] is given. [`Host::run`] runs a journal
//! that is at hand, a [`Feeder`] one that is read as it arrives. [`Host::fresh_with`] starts a host with a [`WritePolicy`]. [`Host::check`]
//! says what is wrong with a damaged host, which [`Host::open`] reads from its image.
//!
//! ```
//! use ration::{Action, Answer, Call, Guest, Host, Pa, PinKind, Refusal, Va};
//!
//! let mut host = Host::fresh();
//! let done = Answer::Done(0);
//! // guest 0 asks for a page at its physical address 1, and the host gives it one
//! assert_eq!(host.act(Action::Hcall(Call::Pin(Pa(1), PinKind::Data))), done);
//! assert_eq!(host.act(Action::Pin(Pa(1), PinKind::Data)), done);
//! assert_eq!(host.act(Action::Chmod), done);
//! // it has not asked for that page at a virtual address yet
//! let answer = host.act(Action::Read(Va(0)));
//! assert_eq!(answer, Answer::Refused(Refusal::Unmapped));
//! assert_eq!(answer.to_string(), "refused 6: nothing is mapped at this address");
//! // it asks for a page where it has one; the host cannot do that, so it declines, and the guest runs on
//! assert_eq!(host.act(Action::Hcall(Call::Pin(Pa(1), PinKind::Data))), done);
//! assert_eq!(host.act(Action::Pin(Pa(1), PinKind::Data)), Answer::Refused(Refusal::PlaceTaken));
//! assert_eq!(host.act(Action::Drop(Guest(0))), done);
//! assert_eq!(host.act(Action::Chmod), done);
//! // the host is saved, and another one goes on where it ended
//! let image = host.save()?;
//! let mut other = Host::fresh();
//! other.load(&image)?;
//! assert_eq!(other, host);
//! # Ok::<(), Refusal>(())
//! ```
#![warn(missing_docs)]

mod answers;
mod archive;
mod checking;
mod feeder;
mod host;
mod pieces;
mod policy;
mod records;

pub use answers::{Answer, Refusal, Report, Unknown, ANSWER};
pub use checking::{Field, Finding, Place, Rule};
pub use feeder::{FeedError, Feeder};
pub use host::{Host, IMAGE_SIZE, SIZE};
pub use pieces::{Fed, Kept, KEPT_SIZE};
pub use policy::WritePolicy;
pub use records::{journal, Action, Call, Guest, Pa, PinKind, Va, HEADER, RECORD};

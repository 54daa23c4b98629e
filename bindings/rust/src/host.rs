//! A host that owns its state, over the functions of `include/ration.h`.

use crate::answers::REPORT;
use crate::archive as c;
use crate::{
    Action, Answer, Fed, Finding, Kept, Place, Refusal, Report, Rule, WritePolicy, ANSWER,
};

/// The bytes of a state.
pub const SIZE: usize = 4755;
/// The bytes of an image as [`Host::save`] makes it, of version 2.
pub const IMAGE_SIZE: usize = 4760;

/// What starting with a policy, feeding, saving, loading and opening answer: a number, 0 for done.
fn done(number: u8) -> Result<(), Refusal> {
    Refusal::from_number(number.into()).map_or(Ok(()), Err)
}

/// A host and its state.
#[derive(Clone, Debug, PartialEq, Eq)]
pub struct Host(Box<[u8; SIZE]>);

impl Default for Host {
    /// The same as [`Host::fresh`].
    fn default() -> Host {
        Host::fresh()
    }
}

// Of each call below: its pointers come from references, so they are not null, are good for the call, lead to bytes of the sizes
// that the types say, and what is written overlaps nothing. That the archive has the same sizes was compared when the host was made.
impl Host {
    /// The one way to a host, but for a clone of one: so no byte is lent before the sizes were compared.
    fn of(bytes: Box<[u8; SIZE]>) -> Host {
        c::compare_sizes();
        Host(bytes)
    }

    /// The fresh machine, with write-back.
    ///
    /// # Panics
    ///
    /// If `libration.a` was built with other sizes than this package.
    pub fn fresh() -> Host {
        let mut host = Host::of(Box::new([0; SIZE]));
        unsafe { c::ration_fresh(&mut *host.0) };
        host
    }

    /// The fresh machine with this policy.
    ///
    /// ```
    /// use ration::{Host, WritePolicy};
    ///
    /// let host = Host::fresh_with(WritePolicy::Through);
    /// assert_eq!(host.policy(), Some(WritePolicy::Through));
    /// assert_eq!(Host::fresh(), Host::fresh_with(WritePolicy::Back));
    /// ```
    ///
    /// # Panics
    ///
    /// If `libration.a` was built with other sizes than this package.
    pub fn fresh_with(policy: WritePolicy) -> Host {
        let mut host = Host::of(Box::new([0; SIZE]));
        done(unsafe { c::ration_fresh_with(&mut *host.0, policy.number()) })
            .expect("libration.a has both policies");
        host
    }

    /// A host of these bytes (`docs/STATE.md` has their layout). Any bytes are a state; [`Host::valid`] says whether it is valid.
    ///
    /// # Panics
    ///
    /// If `libration.a` was built with other sizes than this package.
    pub fn from_bytes(bytes: [u8; SIZE]) -> Host {
        Host::of(Box::new(bytes))
    }

    /// The bytes of the state, for [`Host::from_bytes`]. What is to be kept longer than the program runs is kept by [`Host::save`].
    pub fn bytes(&self) -> &[u8; SIZE] {
        &self.0
    }

    /// The state's policy, the same from [`Host::fresh_with`] on until an image is loaded. `None` if its number is no policy's: such a
    /// state is not valid.
    pub fn policy(&self) -> Option<WritePolicy> {
        WritePolicy::from_number(unsafe { c::ration_policy(&*self.0) })
    }

    /// Whether the state is valid, by the eleven rules. From a valid state every action leads to a valid state. [`Host::check`] says what
    /// is wrong with one that is not.
    pub fn valid(&self) -> bool {
        unsafe { c::ration_valid(&*self.0) }
    }

    /// How many pages are free.
    pub fn free_pages(&self) -> u32 {
        unsafe { c::ration_free_pages(&*self.0) }
    }

    /// Judges an action, and does it or refuses it.
    pub fn act(&mut self, action: Action) -> Answer {
        self.step(&action.record())
    }

    /// Judges a record, and does it or refuses it: any bytes, of any length.
    pub fn step(&mut self, record: &[u8]) -> Answer {
        let mut answer = [0; ANSWER];
        unsafe { c::ration_step(&mut *self.0, record.as_ptr(), record.len(), &mut answer) };
        Answer::from_bytes(answer)
    }

    /// Runs a journal ([`crate::journal`] makes one); record n's answer goes to the [`ANSWER`] bytes from `ANSWER * n` on, where
    /// [`Answer::from_bytes`] reads it. A refused record does not stop it. A refused journal changes neither state nor answers.
    pub fn run(&mut self, journal: &[u8], answers: &mut [u8]) -> Result<Report, Refusal> {
        let mut report = [0; REPORT];
        let (length, room) = (journal.len(), answers.len());
        unsafe {
            c::ration_run(
                &mut *self.0,
                journal.as_ptr(),
                length,
                answers.as_mut_ptr(),
                room,
                &mut report,
            )
        };
        Report::from_bytes(report)
    }

    /// Runs what has arrived of a journal: the piece goes on where the bytes taken since [`Kept::begin`] end, be that inside the header
    /// or a record. At most `allowance` records are run, and a journal may have any number of them; `last` says that the input ends
    /// with this piece. The answers stand at the start of the buffer, in each call anew. What was not taken is to be offered again, in
    /// front of what arrives later; with an allowance at least one byte of a piece is taken. [`Feeder`](crate::Feeder) does all this.
    ///
    /// Refused with [`Refusal::State`]; with [`Refusal::Header`] if a header byte is wrong, if the input ends while the header is
    /// short, or if what is kept is damaged, and then again until [`Kept::begin`]; or with [`Refusal::AnswerBuffer`] if the buffer has
    /// less than [`ANSWER`] bytes for each record to be run. Then neither state nor answers change.
    ///
    /// ```
    /// use ration::{journal, Action, Answer, Fed, Host, Kept, Refusal, ANSWER};
    ///
    /// let (mut host, mut kept, mut answers) = (Host::fresh(), Kept::begin(), [0; ANSWER]);
    /// let bytes = journal(&[Action::RetCtrl, Action::RetCtrl]);
    /// // the header and three bytes of a record: nothing to run yet
    /// assert_eq!(host.feed(&mut kept, &bytes[..11], 1, false, &mut answers), Ok(Fed { records: 0, bytes: 11 }));
    /// // the rest, but one record at a time
    /// assert_eq!(host.feed(&mut kept, &bytes[11..], 1, true, &mut answers), Ok(Fed { records: 1, bytes: 5 }));
    /// assert_eq!(Answer::from_bytes(answers), Answer::Done(0));
    /// assert_eq!(host.feed(&mut kept, &bytes[16..], 1, true, &mut answers), Ok(Fed { records: 1, bytes: 8 }));
    /// assert_eq!(Answer::from_bytes(answers), Answer::Refused(Refusal::Mode));
    /// ```
    pub fn feed(
        &mut self,
        kept: &mut Kept,
        piece: &[u8],
        allowance: usize,
        last: bool,
        answers: &mut [u8],
    ) -> Result<Fed, Refusal> {
        let (length, room) = (piece.len(), answers.len());
        let (mut records, mut bytes) = (0, 0);
        done(unsafe {
            c::ration_feed(
                &mut *self.0,
                kept.bytes_mut(),
                piece.as_ptr(),
                length,
                allowance,
                last,
                answers.as_mut_ptr(),
                room,
                &mut records,
                &mut bytes,
            )
        })?;
        Ok(Fed { records, bytes })
    }

    /// The whole state, with its policy, as an image, to be kept in a file and handed to [`Host::load`] later (`docs/IMAGE.md` has its
    /// layout). Equal states have equal images. Refused with [`Refusal::State`] if the state is not valid.
    pub fn save(&self) -> Result<[u8; IMAGE_SIZE], Refusal> {
        let mut image = [0; IMAGE_SIZE];
        done(unsafe { c::ration_save(&*self.0, image.as_mut_ptr(), image.len()) })?;
        Ok(image)
    }

    /// Makes the state the one that the image holds, whatever it was before: any bytes, of any length. The policy is the image's; one
    /// of version 1, a byte shorter, has none and is loaded as [`WritePolicy::Back`]. Refused with [`Refusal::Image`] if the bytes are
    /// no image of either version, then with [`Refusal::State`] if the state that the image holds is not valid; the state is then as
    /// it was.
    pub fn load(&mut self, image: &[u8]) -> Result<(), Refusal> {
        done(unsafe { c::ration_load(&mut *self.0, image.as_ptr(), image.len()) })
    }

    /// Makes the state the one that the image holds, as [`Host::load`] does, but whether it is valid or not: for [`Host::check`]. Refused
    /// with [`Refusal::Image`] alone, if the bytes are no image of either version; the state is then as it was.
    pub fn open(&mut self, image: &[u8]) -> Result<(), Refusal> {
        done(unsafe { c::ration_open(&mut *self.0, image.as_ptr(), image.len()) })
    }

    /// The first place where the state breaks the rule, in the order of `docs/RULES.md`; `None` if the rule holds. Each rule is judged
    /// by itself, whatever is wrong elsewhere, and any state may be.
    pub fn broken(&self, rule: Rule) -> Option<Place> {
        let (mut part, mut place) = (0, 0);
        match unsafe { c::ration_broken(&*self.0, rule.number(), &mut part, &mut place) } {
            0 => None,
            1 => Some(Place::of(rule, part, place)),
            // a library without this rule, and so not this package's: that it holds was not said
            _ => Some(Place::Other { part, place }),
        }
    }

    /// What is said of each rule, in their order. The state is valid exactly if all of them hold. A finding is displayed as the line that
    /// `./rpj --check` prints of it.
    ///
    /// ```
    /// use ration::{Guest, Host, Pa, Place, Refusal, Rule};
    ///
    /// let mut image = Host::fresh().save()?;
    /// image[4293 + 16 * 2 + 5] = 5; // guest 2's physical 5 leads to page 4, which is the host's: docs/IMAGE.md
    /// let mut host = Host::fresh();
    /// assert_eq!(host.load(&image), Err(Refusal::State));
    /// host.open(&image)?;
    /// let broken: Vec<_> = host.check().into_iter().filter(|finding| !finding.holds()).collect();
    /// assert_eq!(broken.len(), 1);
    /// assert_eq!(broken[0].to_string(), "3 broken guest 2 physical 5");
    /// assert_eq!(broken[0].broken, Some(Place::Physical { guest: Guest(2), address: Pa(5) }));
    /// // or of one rule
    /// let rule = Rule::from_number(4).unwrap();
    /// assert_eq!(host.broken(rule), None);
    /// # Ok::<(), Refusal>(())
    /// ```
    pub fn check(&self) -> [Finding; Rule::ALL.len()] {
        Rule::ALL.map(|rule| Finding { rule, broken: self.broken(rule) })
    }
}

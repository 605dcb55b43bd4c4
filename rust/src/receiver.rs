//! Receiving: opening records, one sequence number after another.

use alloc::vec::Vec;
use core::fmt;

use crate::error::Error;
use crate::record::Record;
use crate::sys::{self, Handle};
use crate::values::{Expect, Key, Moment};

/// What a receiver goes on from.
#[derive(Clone, Copy, Debug, PartialEq, Eq)]
pub struct State {
    /// The sequence number that is demanded next, 2^32 where none is left.
    pub expected: u64,
    /// Whether a close was accepted: nothing is accepted after it.
    pub closed: bool,
}

/// Takes the records of one sender in order, each once. After any error it is as it was.
pub struct Receiver(Handle);

impl Receiver {
    /// Makes a receiver, which demands this number first. With a stored state it goes on where another
    /// one stopped. The key is copied.
    ///
    /// [`Error::Processor`], [`Error::Argument`] of a number over 2^32, [`Error::Memory`].
    pub fn new(key: Key<'_>, expect: &Expect, from: State) -> Result<Receiver, Error> {
        Handle::receiver(key, &expect.raw(), from.expected, from.closed).map(Receiver)
    }

    /// [`Receiver::take_at`], now. [`Error::Clock`].
    #[cfg(feature = "std")]
    pub fn take(&mut self, frame: &[u8]) -> Result<Record, Error> {
        self.take_at(frame, Moment::now()?)
    }

    /// The record of a message with the demanded number, opened at this moment. The next number is
    /// demanded then, and nothing is accepted after [`Record::Closed`].
    ///
    /// [`Error::BadOrder`] has the number that the message carries, if it is authentic and meets all
    /// else: one below the demanded number is a repeat, one above it a gap.
    ///
    /// [`Error::Moment`], a [refusal](Error::is_refusal), [`Error::Memory`].
    pub fn take_at(&mut self, frame: &[u8], at: Moment) -> Result<Record, Error> {
        outcome(sys::take(&mut self.0, frame, &at.raw()))
    }

    /// [`Receiver::take_many_at`], now. [`Error::Clock`].
    #[cfg(feature = "std")]
    pub fn take_many(&mut self, frames: &[&[u8]]) -> Result<Vec<Result<Record, Error>>, Error> {
        self.take_many_at(frames, Moment::now()?)
    }

    /// What as many calls of [`Receiver::take_at`] give one after another, at one moment: quicker, since the
    /// library computes the codes of eight messages side by side. A message that is refused changes nothing,
    /// and those after it are taken.
    ///
    /// [`Error::Argument`] of more than [`MOST_FRAMES`](crate::MOST_FRAMES), [`Error::Moment`],
    /// [`Error::Memory`] of the room for all records: then no message was taken.
    pub fn take_many_at(
        &mut self,
        frames: &[&[u8]],
        at: Moment,
    ) -> Result<Vec<Result<Record, Error>>, Error> {
        Ok(sys::take_many(&mut self.0, frames, &at.raw())?.into_iter().map(outcome).collect())
    }

    /// The number that is demanded next, and whether a close was accepted.
    #[must_use]
    pub fn state(&self) -> State {
        let (expected, closed) = sys::receiver_state(&self.0);
        State { expected, closed }
    }
}

/// What taking a message gave: its record, or its error with the number that it told.
fn outcome(taken: sys::Taking) -> Result<Record, Error> {
    match taken {
        Ok((kind, bytes)) => Record::of(kind, bytes),
        Err((Error::BadOrder { .. }, number)) => {
            Err(Error::BadOrder { number: u32::try_from(number).ok() })
        }
        Err((error, _)) => Err(error),
    }
}

/// The state, and no key.
impl fmt::Debug for Receiver {
    fn fmt(&self, to: &mut fmt::Formatter<'_>) -> fmt::Result {
        to.debug_struct("Receiver").field("state", &self.state()).finish_non_exhaustive()
    }
}

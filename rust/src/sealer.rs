//! Sealing.

use alloc::vec::Vec;
use core::fmt;

use crate::error::Error;
use crate::record::Record;
use crate::sys::{self, Handle};
use crate::values::{Confounder, Key, Mode, Moment, Session};

/// What one of several messages is sealed from.
#[derive(Clone, Copy, Debug)]
pub struct Message<'a> {
    /// The user data.
    pub user_data: &'a [u8],
    /// The message's time.
    pub at: Moment,
    /// 16 bytes that nobody can foresee; a KRB-SAFE doesn't use them.
    pub confounder: Confounder,
}

/// The messages of user data, without what a call that seals them now reads of the system.
#[cfg(feature = "std")]
pub(crate) fn user_data_alone(user_data: &[impl AsRef<[u8]>]) -> Vec<Message<'_>> {
    let at = Moment { seconds: 0, microseconds: 0 };
    let message = |it| Message { user_data: it, at, confounder: Confounder::default() };
    user_data.iter().map(|it| message(it.as_ref())).collect()
}

/// Why none of several messages was sealed.
#[derive(Clone, Debug, PartialEq, Eq)]
pub struct ManyError {
    /// The index of the first message that can't be sealed, if it is one of them.
    pub index: Option<usize>,
    /// What sealing it by a call of its own returns.
    pub error: Error,
}

impl fmt::Display for ManyError {
    fn fmt(&self, to: &mut fmt::Formatter<'_>) -> fmt::Result {
        match self.index {
            Some(index) => write!(to, "message {index}: {}", self.error),
            None => self.error.fmt(to),
        }
    }
}

#[cfg(feature = "std")]
impl std::error::Error for ManyError {}

/// Seals messages under a session key, with one sequence number after another.
///
/// A session key seals each sequence number once in each direction. After any error the sealer is as it
/// was: its number doesn't rise.
pub struct Sealer(Handle);

impl Sealer {
    /// Makes a sealer. The key is copied.
    ///
    /// [`Error::Processor`], [`Error::Memory`].
    pub fn new(key: Key<'_>, session: &Session) -> Result<Sealer, Error> {
        Handle::sealer(key, &session.raw()).map(Sealer)
    }

    /// The message of the user data at the next sequence number and now, with a confounder of the
    /// system's: a KRB-SAFE or KRB-PRIV (RFC 4120 sections 3.4.1 and 3.5.1), in DER.
    ///
    /// [`Error::Clock`], [`Error::Random`], and the errors of [`Sealer::seal_at`].
    #[cfg(feature = "std")]
    pub fn seal(&mut self, user_data: &[u8]) -> Result<Vec<u8>, Error> {
        sys::seal_now(&mut self.0, user_data)
    }

    /// The same at this moment, with this confounder.
    ///
    /// [`Error::Moment`], [`Error::Wiped`], [`Error::TooLong`] of more than
    /// [`USER_DATA_LIMIT`](crate::USER_DATA_LIMIT) bytes, [`Error::Exhausted`], [`Error::Memory`].
    pub fn seal_at(
        &mut self,
        user_data: &[u8],
        at: Moment,
        confounder: &Confounder,
    ) -> Result<Vec<u8>, Error> {
        sys::seal(&mut self.0, user_data, &at.raw(), confounder)
    }

    /// The messages that as many calls of [`Sealer::seal_at`] make one after another: quicker, since the
    /// library seals eight side by side. All are sealed or none.
    ///
    /// [`Error::Argument`] of more than [`MOST_MESSAGES`](crate::MOST_MESSAGES), or the error of the first that
    /// can't be sealed, or [`Error::Memory`].
    pub fn seal_many(&mut self, messages: &[Message<'_>]) -> Result<Vec<Vec<u8>>, ManyError> {
        sys::seal_many(&mut self.0, messages)
    }

    /// [`Sealer::seal_many`] of these user data, now, each with a confounder of the system's.
    ///
    /// [`Error::Clock`], [`Error::Random`], and the errors of [`Sealer::seal_many`].
    #[cfg(feature = "std")]
    pub fn seal_many_now(&mut self, user_data: &[impl AsRef<[u8]>]) -> Result<Vec<Vec<u8>>, ManyError> {
        sys::seal_many_now(&mut self.0, &user_data_alone(user_data))
    }

    /// The message of a record, which a [`Receiver`](crate::Receiver) takes, as [`Sealer::seal`] seals
    /// user data.
    ///
    /// [`Error::Record`] where the record is too long, or a batch hasn't 2 to 1,000 texts.
    #[cfg(feature = "std")]
    pub fn seal_record(&mut self, record: &Record) -> Result<Vec<u8>, Error> {
        let (kind, bytes) = record.parts();
        sys::seal_record_now(&mut self.0, kind, bytes)
    }

    /// The same at this moment, with this confounder.
    pub fn seal_record_at(
        &mut self,
        record: &Record,
        at: Moment,
        confounder: &Confounder,
    ) -> Result<Vec<u8>, Error> {
        let (kind, bytes) = record.parts();
        sys::seal_record(&mut self.0, kind, bytes, &at.raw(), confounder)
    }

    /// The next sequence number, 2^32 where none is left.
    #[must_use]
    pub fn next(&self) -> u64 {
        sys::next(&self.0)
    }

    /// The exact size of the message of `len` bytes of user data at the next sequence number and this
    /// moment. A record's user data are its bytes and one more. Nothing is sealed.
    ///
    /// [`Error::Moment`], [`Error::TooLong`].
    pub fn frame_size(&self, len: usize, at: Moment) -> Result<usize, Error> {
        sys::sealed_size(&self.0, len, &at.raw())
    }

    /// Seals in this mode from now on. Key, number and addresses stay.
    pub fn set_mode(&mut self, mode: Mode) -> Result<(), Error> {
        sys::set_mode(&mut self.0, mode as u32)
    }

    /// Overwrites the keys: sealing returns [`Error::Wiped`] from then on.
    pub fn wipe(&mut self) {
        sys::wipe_sealer(&mut self.0);
    }
}

/// The next number, and no key.
impl fmt::Debug for Sealer {
    fn fmt(&self, to: &mut fmt::Formatter<'_>) -> fmt::Result {
        to.debug_struct("Sealer").field("next", &self.next()).finish_non_exhaustive()
    }
}

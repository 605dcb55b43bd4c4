//! Peers: one end of a session of user data, in both directions.

use alloc::vec::Vec;
use core::fmt;

use crate::error::Error;
use crate::sealer::{ManyError, Message};
use crate::sys::{self, Handle};
use crate::values::{Body, Carried, Confounder, Demand, Key, Moment, Session};
use crate::PEER_STATE_SIZE;

/// The sequence numbers of a peer, each 2^32 where none is left.
#[derive(Clone, Copy, Debug, PartialEq, Eq)]
pub struct Numbers {
    /// The one that is sealed next.
    pub next: u64,
    /// The one that is expected next of the other end.
    pub expected: u64,
}

/// One end of a session: it seals under its own sequence numbers, and opens what the other end sealed in
/// order, each message once. After any error it is as it was.
///
/// One key serves both directions: so the ends need different addresses, such as the directional ones,
/// and each demands the other's.
///
/// ```
/// use krbrelay::{Address, Demand, Error, Key, Mode, Peer, Session};
///
/// # fn main() -> Result<(), Error> {
/// # #[cfg(feature = "std")] {
/// let key = Key::Aes256(b"a key of thirty-two bytes, say..");
/// let ends = |own, other| Peer::new(key, &Session::new(Mode::Priv, own), &Demand::of_sender(other));
/// let mut client = ends(Address::CLIENT, Address::SERVER)?;
/// let mut server = ends(Address::SERVER, Address::CLIENT)?;
///
/// let frame = client.seal(b"hello")?;
/// assert_eq!(server.open(&frame)?.user_data, b"hello");
/// // It comes again, and it comes back.
/// assert_eq!(server.open(&frame), Err(Error::BadOrder { number: Some(0) }));
/// assert_eq!(client.open(&frame), Err(Error::BadAddr));
/// # }
/// # Ok(())
/// # }
/// ```
pub struct Peer(Handle);

impl Peer {
    /// Makes a peer, which writes what the session says, and demands the rest of the other end's messages.
    /// The demand's number is the first that is expected, 0 where it is `None`. The key is copied.
    ///
    /// [`Error::Processor`], [`Error::Argument`] of a number over 2^32 and of
    /// [`How::IfPresent`](crate::How::IfPresent) for it, [`Error::Memory`].
    pub fn new(key: Key<'_>, session: &Session, demand: &Demand) -> Result<Peer, Error> {
        Handle::peer(key, &session.raw(), &numbered(demand).raw(), None).map(Peer)
    }

    /// Goes on from what [`Peer::export`] returned. The session's first number is 0, and the demand's
    /// number `None` or 0.
    ///
    /// [`Error::Processor`], [`Error::Argument`] also where they aren't, or the bytes are no export,
    /// [`Error::Exhausted`] where no number is left to seal under, [`Error::Memory`].
    pub fn resume(
        key: Key<'_>,
        session: &Session,
        demand: &Demand,
        state: &[u8; PEER_STATE_SIZE],
    ) -> Result<Peer, Error> {
        Handle::peer(key, &session.raw(), &numbered(demand).raw(), Some(state)).map(Peer)
    }

    /// The message of the user data at the next sequence number and now, as
    /// [`Sealer::seal`](crate::Sealer::seal) makes it.
    #[cfg(feature = "std")]
    pub fn seal(&mut self, user_data: &[u8]) -> Result<Vec<u8>, Error> {
        sys::peer_seal_now(&mut self.0, user_data)
    }

    /// The same at this moment, with this confounder.
    ///
    /// [`Error::Moment`], [`Error::TooLong`], [`Error::Exhausted`], [`Error::Memory`].
    pub fn seal_at(
        &mut self,
        user_data: &[u8],
        at: Moment,
        confounder: &Confounder,
    ) -> Result<Vec<u8>, Error> {
        sys::peer_seal(&mut self.0, user_data, &at.raw(), confounder)
    }

    /// The messages that as many calls of [`Peer::seal_at`] make one after another, as
    /// [`Sealer::seal_many`](crate::Sealer::seal_many) makes them: quicker, and all are sealed or none.
    ///
    /// [`Error::Argument`] of more than [`MOST_MESSAGES`](crate::MOST_MESSAGES), or the error of the first that
    /// can't be sealed, or [`Error::Memory`].
    pub fn seal_many(&mut self, messages: &[Message<'_>]) -> Result<Vec<Vec<u8>>, ManyError> {
        sys::peer_seal_many(&mut self.0, messages)
    }

    /// [`Peer::seal_many`] of these user data, now, each with a confounder of the system's.
    ///
    /// [`Error::Clock`], [`Error::Random`], and the errors of [`Peer::seal_many`].
    #[cfg(feature = "std")]
    pub fn seal_many_now(&mut self, user_data: &[impl AsRef<[u8]>]) -> Result<Vec<Vec<u8>>, ManyError> {
        sys::peer_seal_many_now(&mut self.0, &crate::sealer::user_data_alone(user_data))
    }

    /// [`Peer::open_at`], now. [`Error::Clock`].
    #[cfg(feature = "std")]
    pub fn open(&mut self, frame: &[u8]) -> Result<Body, Error> {
        self.open_at(frame, Moment::now()?)
    }

    /// What a message of the other end with the expected number carries, opened at this moment. The
    /// number is one more then.
    ///
    /// [`Error::BadOrder`] is of an authentic message that meets all but the number, and has the one that
    /// the message carries: below the expected one it is a repeat, above it a gap.
    ///
    /// [`Error::Moment`], a [refusal](Error::is_refusal), [`Error::Memory`].
    pub fn open_at(&mut self, frame: &[u8], at: Moment) -> Result<Body, Error> {
        let (user_data, carried) = sys::peer_open(&mut self.0, frame, &at.raw());
        let carried = Carried::of(&carried);
        match user_data {
            Ok(user_data) => Ok(Body { user_data, carried }),
            Err(Error::BadOrder { .. }) => Err(Error::BadOrder { number: carried.number }),
            Err(error) => Err(error),
        }
    }

    /// The next number and the expected one.
    #[must_use]
    pub fn numbers(&self) -> Numbers {
        let (next, expected) = sys::peer_state(&self.0);
        Numbers { next, expected }
    }

    /// Both numbers, without a secret. Store them before the messages that were sealed are sent: a peer
    /// that goes on from them seals no number twice.
    #[must_use]
    pub fn export(&self) -> [u8; PEER_STATE_SIZE] {
        sys::peer_export(&self.0)
    }
}

/// A peer always demands a number.
fn numbered(demand: &Demand) -> Demand {
    Demand { number: demand.number.or(Some(0)), ..*demand }
}

/// The numbers, and no key.
impl fmt::Debug for Peer {
    fn fmt(&self, to: &mut fmt::Formatter<'_>) -> fmt::Result {
        to.debug_struct("Peer").field("numbers", &self.numbers()).finish_non_exhaustive()
    }
}

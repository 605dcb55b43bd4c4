//! What is passed to the calls and returned by them.

use alloc::vec::Vec;
use core::fmt;
#[cfg(feature = "std")]
use std::time::{Duration, SystemTime, UNIX_EPOCH};

use crate::address::Address;
use crate::error::Error;
use crate::sys;

/// The kinds of messages (RFC 4120 section 5.10).
#[derive(Clone, Copy, Debug, PartialEq, Eq, Hash)]
pub enum Mode {
    /// KRB-SAFE: user data in clear under a checksum (RFC 4120 section 5.6).
    Safe = 20,
    /// KRB-PRIV: user data encrypted (RFC 4120 section 5.7).
    Priv = 21,
}

/// A session key with its encryption type (RFC 3962).
#[derive(Clone, Copy)]
pub enum Key<'a> {
    /// Of encryption type 17, aes128-cts-hmac-sha1-96.
    Aes128(&'a [u8; 16]),
    /// Of encryption type 18, aes256-cts-hmac-sha1-96.
    Aes256(&'a [u8; 32]),
}

impl<'a> Key<'a> {
    /// The key of an encryption type, by its number. [`Error::Etype`](Error::Etype) where it is
    /// neither 17 nor 18, [`Error::KeySize`](Error::KeySize) where these aren't its bytes.
    pub fn new(etype: i32, bytes: &'a [u8]) -> Result<Key<'a>, Error> {
        match etype {
            17 => bytes.try_into().map(Key::Aes128).map_err(|_| Error::KeySize),
            18 => bytes.try_into().map(Key::Aes256).map_err(|_| Error::KeySize),
            _ => Err(Error::Etype),
        }
    }

    /// The number of its encryption type.
    #[must_use]
    pub const fn etype(&self) -> i32 {
        match self {
            Key::Aes128(_) => 17,
            Key::Aes256(_) => 18,
        }
    }

    pub(crate) fn parts(&self) -> (i32, &[u8]) {
        match self {
            Key::Aes128(bytes) => (self.etype(), &bytes[..]),
            Key::Aes256(bytes) => (self.etype(), &bytes[..]),
        }
    }
}

/// The encryption type alone: the key stays secret.
impl fmt::Debug for Key<'_> {
    fn fmt(&self, to: &mut fmt::Formatter<'_>) -> fmt::Result {
        write!(to, "Key(encryption type {})", self.etype())
    }
}

/// What a KRB-PRIV begins with (RFC 3961 section 5.3): 16 bytes that nobody can foresee, new for each. A
/// KRB-SAFE has none, and doesn't use them.
pub type Confounder = [u8; 16];

/// A moment of the years 1970 to 9999. A call to which another one is given returns
/// [`Error::Moment`](Error::Moment).
#[derive(Clone, Copy, Debug, PartialEq, Eq, PartialOrd, Ord, Hash)]
pub struct Moment {
    /// Seconds since 1970-01-01T00:00:00Z.
    pub seconds: u64,
    /// Microseconds after that second, below a million.
    pub microseconds: u32,
}

impl Moment {
    /// The moment of the system's clock. [`Error::Clock`](Error::Clock).
    #[cfg(feature = "std")]
    pub fn now() -> Result<Moment, Error> {
        sys::now().map(|now| Moment { seconds: now.seconds, microseconds: now.microseconds })
    }

    /// As the standard library has it, or `None` where it has no such time.
    #[cfg(feature = "std")]
    #[must_use]
    pub fn system_time(self) -> Option<SystemTime> {
        let micros = Duration::from_micros(u64::from(self.microseconds));
        UNIX_EPOCH.checked_add(Duration::from_secs(self.seconds))?.checked_add(micros)
    }

    pub(crate) fn raw(self) -> sys::Moment {
        let Moment { seconds, microseconds } = self;
        sys::Moment { seconds, microseconds, reserved: 0 }
    }
}

/// [`Error::Moment`](Error::Moment) of a time before 1970.
#[cfg(feature = "std")]
impl TryFrom<SystemTime> for Moment {
    type Error = Error;

    fn try_from(time: SystemTime) -> Result<Moment, Error> {
        let since = time.duration_since(UNIX_EPOCH).map_err(|_| Error::Moment)?;
        Ok(Moment { seconds: since.as_secs(), microseconds: since.subsec_micros() })
    }
}

/// What a [`Sealer`](crate::Sealer) or a [`Peer`](crate::Peer) writes into each message.
#[derive(Clone, Copy, Debug, PartialEq, Eq)]
pub struct Session {
    /// KRB-SAFE or KRB-PRIV.
    pub mode: Mode,
    /// The first sequence number.
    pub first: u32,
    /// The sender's address.
    pub sender: Address,
    /// The receiver's address, or `None`: the messages don't carry it.
    pub receiver: Option<Address>,
}

impl Session {
    /// From the sequence number 0 on, without the receiver's address.
    #[must_use]
    pub const fn new(mode: Mode, sender: Address) -> Session {
        Session { mode, first: 0, sender, receiver: None }
    }

    pub(crate) fn raw(&self) -> sys::Session {
        sys::Session {
            mode: self.mode as u32,
            first: self.first,
            sender: self.sender.0,
            has_receiver: u32::from(self.receiver.is_some()),
            receiver: raw_address(self.receiver),
            reserved: [0; 5],
        }
    }
}

/// What [`Opener::unseal`](crate::Opener::unseal) and a [`Receiver`](crate::Receiver) demand of each
/// message.
#[derive(Clone, Copy, Debug, PartialEq, Eq)]
pub struct Expect {
    /// KRB-SAFE or KRB-PRIV.
    pub mode: Mode,
    /// The sender's address.
    pub sender: Address,
    /// The receiver's address.
    pub receiver: Address,
    /// Whether a message has to carry the receiver's address.
    pub require_receiver: bool,
    /// Whether a message has to carry its time.
    pub require_time: bool,
    /// How many seconds a message's time may be off from the moment of opening.
    pub skew: u32,
}

impl Expect {
    /// A time that is off by 300 seconds at most; a message may leave the receiver's address out.
    #[must_use]
    pub const fn new(mode: Mode, sender: Address, receiver: Address) -> Expect {
        Expect { mode, sender, receiver, require_receiver: false, require_time: true, skew: 300 }
    }

    pub(crate) fn raw(&self) -> sys::Expect {
        sys::Expect {
            mode: self.mode as u32,
            sender: self.sender.0,
            receiver: self.receiver.0,
            require_receiver: u32::from(self.require_receiver),
            require_time: u32::from(self.require_time),
            skew: self.skew,
            reserved: [0; 4],
        }
    }
}

/// How a demand treats a message that leaves the field out.
#[derive(Clone, Copy, Debug, PartialEq, Eq, Hash)]
pub enum How {
    /// It meets the demand.
    IfPresent = 1,
    /// It doesn't meet the demand.
    Required = 2,
    /// Of sequence numbers and times: an integer that is left out is 0 (RFC 4120 section 5.1.2). The
    /// message has the number 0, or its time is a whole second.
    AbsentIs0 = 3,
}

/// What [`Opener::open`](crate::Opener::open) and a [`Peer`](crate::Peer) demand of an authentic message:
/// of each field that isn't `None`, that the message's fits. The checks come in the order of addresses,
/// time, number, and whether one of both is there. The default demands nothing.
///
/// ```
/// use krbrelay::{Address, Demand};
///
/// let demand = Demand { number: Some(7), ..Demand::of_sender(Address::CLIENT) };
/// assert_eq!(demand.skew, Some(300));
/// ```
#[derive(Clone, Copy, Debug, PartialEq, Eq)]
pub struct Demand {
    /// The sender's address.
    pub sender: Option<Address>,
    /// The receiver's address.
    pub receiver: Option<Address>,
    /// How many seconds the message's time may be off from the moment of opening.
    pub skew: Option<u32>,
    /// The sequence number.
    pub number: Option<u64>,
    /// Of a message without the receiver's address.
    pub how_receiver: How,
    /// Of a message without its time.
    pub how_time: How,
    /// Of a message without its number.
    pub how_number: How,
    /// Whether a message that carries neither its time nor its number is refused, as RFC 4120 asks in
    /// sections 3.4.2 and 3.5.2.
    pub needs_time_or_number: bool,
}

impl Default for Demand {
    fn default() -> Demand {
        Demand {
            sender: None,
            receiver: None,
            skew: None,
            number: None,
            how_receiver: How::Required,
            how_time: How::Required,
            how_number: How::Required,
            needs_time_or_number: false,
        }
    }
}

impl Demand {
    /// The sender's address, and a time that is off by 300 seconds at most. A peer's number begins at 0.
    #[must_use]
    pub fn of_sender(sender: Address) -> Demand {
        Demand { sender: Some(sender), skew: Some(300), ..Demand::default() }
    }

    pub(crate) fn raw(&self) -> sys::Demand {
        sys::Demand {
            how_sender: raw_how(How::Required, self.sender),
            how_receiver: raw_how(self.how_receiver, self.receiver),
            how_time: raw_how(self.how_time, self.skew),
            how_number: raw_how(self.how_number, self.number),
            number: self.number.unwrap_or(0),
            skew: self.skew.unwrap_or(0),
            sender: raw_address(self.sender),
            receiver: raw_address(self.receiver),
            needs_time_or_number: u32::from(self.needs_time_or_number),
            reserved: [0; 4],
        }
    }
}

fn raw_how<T>(how: How, demanded: Option<T>) -> u32 {
    demanded.map_or(0, |_| how as u32)
}

fn raw_address(address: Option<Address>) -> sys::Address {
    address.map_or(sys::NOWHERE, |address| address.0)
}

/// What an authentic message carried beside its user data. What it leaves out is `None`.
#[derive(Clone, Copy, Debug, PartialEq, Eq)]
pub struct Carried {
    /// Its time, in seconds since 1970-01-01T00:00:00Z.
    pub seconds: Option<u64>,
    /// The microseconds of its time, below a million.
    pub microseconds: Option<u32>,
    /// The sequence number.
    pub number: Option<u32>,
    /// The sender's address.
    pub sender: Address,
    /// The receiver's address.
    pub receiver: Option<Address>,
}

impl Carried {
    pub(crate) fn of(raw: &sys::Carried) -> Carried {
        Carried {
            seconds: told(raw.has_seconds, raw.seconds),
            microseconds: told(raw.has_microseconds, raw.microseconds),
            number: told(raw.has_number, raw.number),
            sender: Address(raw.sender),
            receiver: told(raw.has_receiver, Address(raw.receiver)),
        }
    }

    /// Its time with its microseconds, 0 where it leaves these out, or `None` where it leaves the time
    /// out.
    #[must_use]
    pub fn moment(&self) -> Option<Moment> {
        let microseconds = self.microseconds.unwrap_or(0);
        self.seconds.map(|seconds| Moment { seconds, microseconds })
    }
}

pub(crate) fn told<T>(has: u32, value: T) -> Option<T> {
    (has != 0).then_some(value)
}

/// What an authentic message carries (KRB-SAFE-BODY and EncKrbPrivPart, RFC 4120 sections 5.6.1 and
/// 5.7.1).
#[derive(Clone, Debug, PartialEq, Eq)]
pub struct Body {
    /// The user data.
    pub user_data: Vec<u8>,
    /// What else it carried.
    pub carried: Carried,
}

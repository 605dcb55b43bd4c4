//! KRB-SAFE and KRB-PRIV messages of Kerberos V5 (RFC 4120) under encryption types 17 and 18 (RFC 3962),
//! by libkrbrelay, whose functions are proved.
//!
//! ```
//! use krbrelay::{Address, Error, Expect, Key, Mode, Opener, Sealer, Session};
//!
//! # fn main() -> Result<(), Error> {
//! // The key of the session comes from the exchange before it.
//! let key = Key::Aes128(b"chicken teriyaki");
//! let (alice, bob) = (Address::ipv4([10, 0, 0, 1]), Address::ipv4([10, 0, 0, 255]));
//!
//! let mut sealer = Sealer::new(key, &Session { first: 7, ..Session::new(Mode::Priv, alice) })?;
//! # #[cfg(feature = "std")] {
//! let frame = sealer.seal(b"hello")?;
//!
//! let mut opener = Opener::new(key, &Expect::new(Mode::Priv, alice, bob))?;
//! assert_eq!(opener.unseal(&frame, 7)?, b"hello");
//! // The same frame isn't message 8.
//! assert_eq!(opener.unseal(&frame, 8), Err(Error::BadOrder { number: None }));
//! # }
//! # Ok(())
//! # }
//! ```
//!
//! # Which type
//!
//! Two ends that both send and receive, over a connection that keeps the order, need a [`Peer`] each. One
//! end that only sends needs a [`Sealer`], and one that only receives an [`Opener`] or a [`Receiver`].
//!
//! | To | Type | It keeps |
//! |---|---|---|
//! | make messages | [`Sealer`] | the next number |
//! | open one | [`Opener`] | nothing: the caller demands each number |
//! | take each record once, in order | [`Receiver`] | the next number, and whether a close came |
//! | seal, and open each message once, in order | [`Peer`] | both next numbers |
//! | take each number once, in any order | [`Opener::open`], and then [`Window::take`] | the numbers that were taken |
//! | choose a key | [`message_header`] | nothing; none of it is authentic |
//!
//! # What the caller owes
//!
//! Under one session key each direction seals a number once: store a sealer's next number, or a peer's
//! [export](Peer::export), before the message leaves. A confounder that is given is 16 bytes that nobody
//! can foresee, new for each KRB-PRIV. A message that comes back to its maker is refused where both ends
//! have different addresses and demand them, or each direction has a key of its own.
//!
//! # Keys
//!
//! The library copies a key into its own heap. When a sealer, opener, receiver or peer is dropped, that copy is
//! overwritten, and so is the stack that the call used. The caller's own key stays: it is the caller's to
//! overwrite. Each type may go to another thread; none may be shared by two ([`Send`], not [`Sync`]):
//!
//! ```compile_fail
//! fn shared<T: Sync>() {}
//! shared::<krbrelay::Peer>();
//! ```
//!
//! # Features
//!
//! - `std` (default): the system's clock and randomness, [`std::error::Error`] and addresses of `std::net`.
//!   Without it the crate needs `alloc` alone, and the calls take moment and confounder.
//! - `system`: links the installed library, which pkg-config finds, in place of the one in the crate.

#![cfg_attr(not(feature = "std"), no_std)]
#![deny(missing_docs, unsafe_code, missing_debug_implementations, clippy::undocumented_unsafe_blocks)]
#![cfg_attr(
    not(test),
    deny(clippy::unwrap_used, clippy::expect_used, clippy::panic, clippy::indexing_slicing)
)]

extern crate alloc;

mod address;
mod error;
mod history;
mod message;
mod opener;
mod peer;
mod receiver;
mod record;
mod sealer;
mod sys;
mod values;
mod window;

pub use address::Address;
pub use error::{Class, Error};
pub use history::History;
pub use message::{message_header, Header};
pub use opener::Opener;
pub use peer::{Numbers, Peer};
pub use receiver::{Receiver, State};
pub use record::{texts, Batch, Record, Texts};
pub use sealer::{ManyError, Message, Sealer};
pub use sys::{is_supported, library_version};
pub use values::{Body, Carried, Confounder, Demand, Expect, How, Key, Mode, Moment, Session};
pub use window::{Taken, Window};

// tables/limits.toml: limits, by tools/tables
/// The most bytes of user data that are sealed.
pub const USER_DATA_LIMIT: usize = 1_000_001;
/// The most bytes of a message that is opened.
pub const FRAME_LIMIT: usize = 1_005_000;
/// The most bytes of an address.
pub const ADDRESS_LIMIT: usize = 40;
/// The most messages that are sealed in one call.
pub const MOST_MESSAGES: usize = 64;
/// The most frames that are taken in one call.
pub const MOST_FRAMES: usize = 64;
// end of limits
/// The bytes of a peer's two numbers ([`Peer::export`]).
pub const PEER_STATE_SIZE: usize = 20;
/// The bytes of a session's history ([`History::digest`]).
pub const HISTORY_SIZE: usize = 20;

const FRAME_OVERHEAD: usize = 416;

/// A room in which each frame with `len` bytes of user data fits, where `len` is at most
/// [`USER_DATA_LIMIT`].
#[must_use]
pub const fn frame_size(len: usize) -> usize {
    len.saturating_add(FRAME_OVERHEAD)
}

//! Histories: one digest of the frames of a session that took effect, by which both ends see whether they
//! speak of the same frames.

use crate::error::Error;
use crate::sys;
use crate::HISTORY_SIZE;

/// One digest of the frames of a session that took effect, in their order. The default has no frame.
///
/// Numbers don't tell two senders apart: one whose store was restored or copied seals other messages
/// under numbers that were used. A receiver stores the digest beside the number that it demands, and
/// sends both back; a sender adds the frames that it sealed, and compares.
#[derive(Clone, Copy, Debug, Default, PartialEq, Eq, Hash)]
pub struct History([u8; HISTORY_SIZE]);

impl History {
    /// Adds a frame that took effect, or one that was sealed. [`Error::Processor`].
    pub fn add(&mut self, frame: &[u8]) -> Result<(), Error> {
        sys::add_to_history(&mut self.0, frame)
    }

    /// What to store and to compare, with no secret in it.
    #[must_use]
    pub const fn digest(&self) -> [u8; HISTORY_SIZE] {
        self.0
    }
}

/// The history that goes on from a digest that was stored; zeros are no frames.
impl From<[u8; HISTORY_SIZE]> for History {
    fn from(digest: [u8; HISTORY_SIZE]) -> History {
        History(digest)
    }
}

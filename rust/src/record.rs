//! Records: the user data of messages that a receiver takes.

use alloc::vec::Vec;
use core::iter::FusedIterator;

use crate::error::Error;

/// The bytes of a text's length in a batch.
const LENGTH_SIZE: usize = 4;

/// What a [`Receiver`](crate::Receiver) takes.
#[derive(Clone, Debug, PartialEq, Eq)]
pub enum Record {
    /// One text, of 1,000,000 bytes at most.
    Text(Vec<u8>),
    /// 2 to 1,000 texts. Their bytes, and four more for each text, are 1,000,000 at most.
    Batch(Batch),
    /// The end of a session: the receiver refuses all that follows.
    Closed,
}

impl Record {
    const TEXT: u32 = 1;
    const BATCH: u32 = 2;
    const CLOSE: u32 = 3;

    /// The kind, as `enum krbrelay_record` has it, and the bytes.
    pub(crate) fn parts(&self) -> (u32, &[u8]) {
        match self {
            Record::Text(text) => (Record::TEXT, text),
            Record::Batch(batch) => (Record::BATCH, batch.as_bytes()),
            Record::Closed => (Record::CLOSE, &[]),
        }
    }

    pub(crate) fn of(kind: u32, bytes: Vec<u8>) -> Result<Record, Error> {
        match kind {
            Record::TEXT => Ok(Record::Text(bytes)),
            Record::BATCH => Batch::from_bytes(bytes).map(Record::Batch),
            _ => Ok(Record::Closed),
        }
    }
}

/// Texts one after the other: each is four bytes of its length, the most significant first, and its
/// bytes.
///
/// ```
/// use krbrelay::Batch;
///
/// # fn main() -> Result<(), krbrelay::Error> {
/// let mut batch = Batch::new();
/// batch.push(b"one")?;
/// batch.push(b"")?;
/// assert_eq!(batch.as_bytes(), b"\0\0\0\x03one\0\0\0\0");
/// assert_eq!(batch.texts().collect::<Vec<_>>(), [&b"one"[..], b""]);
/// # Ok(())
/// # }
/// ```
#[derive(Clone, Debug, Default, PartialEq, Eq)]
pub struct Batch {
    bytes: Vec<u8>,
}

impl Batch {
    /// A batch of no texts.
    #[must_use]
    pub const fn new() -> Batch {
        Batch { bytes: Vec::new() }
    }

    /// The batch that these bytes are. [`Error::Record`] where they aren't texts one after the other.
    pub fn from_bytes(bytes: Vec<u8>) -> Result<Batch, Error> {
        texts(&bytes).try_for_each(|text| text.map(drop))?;
        Ok(Batch { bytes })
    }

    /// Adds a text. [`Error::Record`] of one with 2^32 bytes or more, [`Error::Memory`]: neither changes
    /// the batch.
    pub fn push(&mut self, text: &[u8]) -> Result<(), Error> {
        let len = u32::try_from(text.len()).map_err(|_| Error::Record)?;
        let more = text.len().checked_add(LENGTH_SIZE).ok_or(Error::Memory)?;
        self.bytes.try_reserve(more).map_err(|_| Error::Memory)?;
        self.bytes.extend_from_slice(&len.to_be_bytes());
        self.bytes.extend_from_slice(text);
        Ok(())
    }

    /// Its texts, in their order.
    pub fn texts(&self) -> impl Iterator<Item = &[u8]> + '_ {
        texts(&self.bytes).filter_map(Result::ok)
    }

    /// Its bytes, as [`Batch::from_bytes`] takes them.
    #[must_use]
    pub fn as_bytes(&self) -> &[u8] {
        &self.bytes
    }
}

/// The texts of bytes that may be a batch. After [`Error::Record`], where no text stands, none follows.
///
/// ```
/// use krbrelay::{texts, Error};
///
/// let mut found = texts(b"\0\0\0\x01a\0\0\0\x02b");
/// assert_eq!(found.next(), Some(Ok(&b"a"[..])));
/// assert_eq!(found.next(), Some(Err(Error::Record)));
/// assert_eq!(found.next(), None);
/// ```
#[must_use]
pub const fn texts(bytes: &[u8]) -> Texts<'_> {
    Texts { rest: bytes }
}

/// The iterator that [`texts`] returns.
#[derive(Clone, Debug)]
pub struct Texts<'a> {
    rest: &'a [u8],
}

impl<'a> Texts<'a> {
    /// The bytes that follow the last text.
    #[must_use]
    pub const fn rest(&self) -> &'a [u8] {
        self.rest
    }

    /// The text that the rest begins with, and what follows it.
    fn split(&self) -> Option<(&'a [u8], &'a [u8])> {
        let length = self.rest.get(..LENGTH_SIZE)?.try_into().ok()?;
        let behind = self.rest.get(LENGTH_SIZE..)?;
        let len = usize::try_from(u32::from_be_bytes(length)).ok()?;
        Some((behind.get(..len)?, behind.get(len..)?))
    }
}

impl<'a> Iterator for Texts<'a> {
    type Item = Result<&'a [u8], Error>;

    fn next(&mut self) -> Option<Self::Item> {
        if self.rest.is_empty() {
            return None;
        }
        let found = self.split();
        self.rest = found.map_or(&[], |(_, rest)| rest);
        Some(found.map(|(text, _)| text).ok_or(Error::Record))
    }
}

impl FusedIterator for Texts<'_> {}

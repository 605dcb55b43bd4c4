//! What a message says of itself in clear.

use crate::error::Error;
use crate::sys;
use crate::values::{told, Mode};

/// What a message says of itself in clear. None of it is authentic until the message is opened. What it
/// leaves out is `None`.
#[derive(Clone, Copy, Debug, PartialEq, Eq)]
pub struct Header {
    /// KRB-SAFE or KRB-PRIV.
    pub kind: Mode,
    /// The encryption type of KRB-PRIV (RFC 3962 section 7). KRB-SAFE has none.
    pub etype: Option<i32>,
    /// Of KRB-SAFE: 15 for encryption type 17, 16 for 18. KRB-PRIV has none.
    pub checksum_type: Option<i32>,
    /// The sequence number of KRB-SAFE. That of KRB-PRIV is encrypted.
    pub number: Option<u32>,
    /// The version of the key, kvno (RFC 4120 section 5.2.9). KRB-SAFE has none.
    pub key_version: Option<u32>,
}

/// What a message says of itself in clear (RFC 4120 sections 5.6.1 and 5.7.1), so that a key can be
/// chosen.
///
/// [`Error::Processor`], [`Error::FieldTooLong`], [`Error::Malformed`], [`Error::Memory`].
///
/// ```
/// use krbrelay::{message_header, Mode};
///
/// let frame = b"\x75\x19\x30\x17\xa0\x03\x02\x01\x05\xa1\x03\x02\x01\x15\xa3\x0b\x30\x09\xa0\x03\x02\x01\x11\
///               \xa2\x02\x04\x00";
/// let header = message_header(frame)?;
/// assert_eq!((header.kind, header.etype), (Mode::Priv, Some(17)));
/// # Ok::<(), krbrelay::Error>(())
/// ```
pub fn message_header(frame: &[u8]) -> Result<Header, Error> {
    let raw = sys::header(frame)?;
    let is_safe = raw.kind == Mode::Safe as u32;
    Ok(Header {
        kind: if is_safe { Mode::Safe } else { Mode::Priv },
        etype: (!is_safe).then_some(raw.etype),
        checksum_type: is_safe.then_some(raw.checksum_type),
        number: told(raw.has_number, raw.number),
        key_version: told(raw.has_key_version, raw.key_version),
    })
}

//! What a call answers that did nothing.

use core::fmt;

/// Why a call did nothing: the answers of libkrbrelay, by their names in `krbrelay.h`. What the call
/// would have changed is as it was.
///
/// The numbers from 14 to 61 are those of RFC 4120 section 7.5.9.
#[derive(Clone, Copy, Debug, PartialEq, Eq, Hash)]
#[non_exhaustive]
pub enum Error {
    // of tables/answers.toml: variants
    /// 1: The keys were overwritten.
    Wiped,
    /// 2: The user data are longer than a message may carry.
    TooLong,
    /// 3: No sequence number is left.
    Exhausted,
    /// 14: Another encryption type.
    EtypeNoSupp,
    /// 31: The encrypted part is too short, or its integrity check fails.
    BadIntegrity,
    /// 37: The time is off by more than the skew, or is missing.
    Skew,
    /// 38: An address isn't the expected one, or is missing.
    BadAddr,
    /// 39: The protocol version isn't 5.
    BadVersion,
    /// 40: The message isn't of the expected kind, KRB-SAFE or KRB-PRIV.
    MsgType,
    /// 41: The checksum differs.
    Modified,
    /// 42: Another sequence number.
    BadOrder {
        /// The number that an authentic message carries which meets all other demands, where a
        /// [`Receiver`](crate::Receiver) or a [`Peer`](crate::Peer) refuses it and it has one.
        number: Option<u32>,
    },
    /// 50: Another type of checksum.
    InappCksum,
    /// 61: Over FRAME_LIMIT bytes.
    FieldTooLong,
    /// 901: Not a DER-encoded KRB-SAFE or KRB-PRIV message.
    Malformed,
    /// 902: Of receivers: the user data aren't a record.
    BadRecord,
    /// 903: Of receivers: a close was accepted before.
    AfterClose,
    /// 904: Out of memory.
    Memory,
    /// 905: The encryption type is neither 17 nor 18.
    Etype,
    /// 906: A buffer is too small.
    Room,
    /// 907: The handle holds nothing.
    Empty,
    /// 908: The key hasn't the size of its encryption type.
    KeySize,
    /// 909: The mode is neither KRB-SAFE nor KRB-PRIV.
    Mode,
    /// 910: The time is outside the years 1970 to 9999.
    Moment,
    /// 911: An address has over 40 bytes.
    Address,
    /// 912: An argument is out of its range.
    Argument,
    /// 913: The texts don't fit in a record.
    Record,
    /// 914: The clock can't be read, or isn't in the years 1970 to 9999.
    Clock,
    /// 915: The system has no random bytes.
    Random,
    /// 916: The processor lacks instructions of the library.
    Processor,
    /// 917: Of windows: the number was taken before.
    Repeated,
    /// 918: Of windows: the number is too far below the highest that was taken.
    TooOld,
    // end of variants
    /// An answer that this crate doesn't know, of a newer library.
    Other(u32),
}

/// What a caller does about an error.
#[derive(Clone, Copy, Debug, PartialEq, Eq, Hash)]
#[non_exhaustive]
pub enum Class {
    /// Drops the message: it isn't authentic, or isn't what is demanded.
    Refusal,
    /// Is mistaken in an argument: the same call fails again.
    Caller,
    /// Needs another handle.
    State,
    /// May try again: memory was exhausted.
    Memory,
    /// Looks at the machine: its clock, its random bytes, its processor.
    System,
    /// Stops: no answer that this crate knows.
    Unknown,
}

impl Error {
    pub(crate) fn of(answer: u32) -> Error {
        match answer {
            // of tables/answers.toml: numbers
            1 => Error::Wiped,
            2 => Error::TooLong,
            3 => Error::Exhausted,
            14 => Error::EtypeNoSupp,
            31 => Error::BadIntegrity,
            37 => Error::Skew,
            38 => Error::BadAddr,
            39 => Error::BadVersion,
            40 => Error::MsgType,
            41 => Error::Modified,
            42 => Error::BadOrder { number: None },
            50 => Error::InappCksum,
            61 => Error::FieldTooLong,
            901 => Error::Malformed,
            902 => Error::BadRecord,
            903 => Error::AfterClose,
            904 => Error::Memory,
            905 => Error::Etype,
            906 => Error::Room,
            907 => Error::Empty,
            908 => Error::KeySize,
            909 => Error::Mode,
            910 => Error::Moment,
            911 => Error::Address,
            912 => Error::Argument,
            913 => Error::Record,
            914 => Error::Clock,
            915 => Error::Random,
            916 => Error::Processor,
            917 => Error::Repeated,
            918 => Error::TooOld,
            // end of numbers
            other => Error::Other(other),
        }
    }

    fn row(self) -> (u32, &'static str, Class) {
        match self {
            // of tables/answers.toml: rows
            Error::Wiped => (1, "WIPED", Class::State),
            Error::TooLong => (2, "TOO_LONG", Class::Caller),
            Error::Exhausted => (3, "EXHAUSTED", Class::State),
            Error::EtypeNoSupp => (14, "ETYPE_NOSUPP", Class::Refusal),
            Error::BadIntegrity => (31, "BAD_INTEGRITY", Class::Refusal),
            Error::Skew => (37, "SKEW", Class::Refusal),
            Error::BadAddr => (38, "BADADDR", Class::Refusal),
            Error::BadVersion => (39, "BADVERSION", Class::Refusal),
            Error::MsgType => (40, "MSG_TYPE", Class::Refusal),
            Error::Modified => (41, "MODIFIED", Class::Refusal),
            Error::BadOrder { .. } => (42, "BADORDER", Class::Refusal),
            Error::InappCksum => (50, "INAPP_CKSUM", Class::Refusal),
            Error::FieldTooLong => (61, "FIELD_TOOLONG", Class::Refusal),
            Error::Malformed => (901, "MALFORMED", Class::Refusal),
            Error::BadRecord => (902, "BAD_RECORD", Class::Refusal),
            Error::AfterClose => (903, "AFTER_CLOSE", Class::Refusal),
            Error::Memory => (904, "MEMORY", Class::Memory),
            Error::Etype => (905, "ETYPE", Class::Caller),
            Error::Room => (906, "ROOM", Class::Caller),
            Error::Empty => (907, "EMPTY", Class::State),
            Error::KeySize => (908, "KEY_SIZE", Class::Caller),
            Error::Mode => (909, "MODE", Class::Caller),
            Error::Moment => (910, "MOMENT", Class::Caller),
            Error::Address => (911, "ADDRESS", Class::Caller),
            Error::Argument => (912, "ARGUMENT", Class::Caller),
            Error::Record => (913, "RECORD", Class::Caller),
            Error::Clock => (914, "CLOCK", Class::System),
            Error::Random => (915, "RANDOM", Class::System),
            Error::Processor => (916, "PROCESSOR", Class::System),
            Error::Repeated => (917, "REPEATED", Class::Refusal),
            Error::TooOld => (918, "TOO_OLD", Class::Refusal),
            // end of rows
            Error::Other(answer) => (answer, "", Class::Unknown),
        }
    }

    /// The number of this answer, as `krbrelay.h` has it.
    #[must_use]
    pub fn answer(self) -> u32 {
        self.row().0
    }

    /// The name of this answer, as "BADORDER"; "" of [`Error::Other`].
    #[must_use]
    pub fn name(self) -> &'static str {
        self.row().1
    }

    /// What a caller does about it.
    #[must_use]
    pub fn class(self) -> Class {
        self.row().2
    }

    /// Whether a message or a number is refused: it is to be dropped.
    #[must_use]
    pub fn is_refusal(self) -> bool {
        self.class() == Class::Refusal
    }
}

/// What `krbrelay_strerror` says, as "the sequence number isn't the expected one".
impl fmt::Display for Error {
    fn fmt(&self, to: &mut fmt::Formatter<'_>) -> fmt::Result {
        to.write_str(match self {
            // of tables/answers.toml: texts
            Error::Wiped => "the keys were overwritten",
            Error::TooLong => "the user data are longer than a message may carry",
            Error::Exhausted => "no sequence number is left",
            Error::EtypeNoSupp => "the encryption type isn't the expected one",
            Error::BadIntegrity => "the encrypted part is too short, or its integrity check fails",
            Error::Skew => "the time is off by more than the skew, or is missing",
            Error::BadAddr => "an address isn't the expected one, or is missing",
            Error::BadVersion => "the protocol version isn't 5",
            Error::MsgType => "the message isn't of the expected kind, KRB-SAFE or KRB-PRIV",
            Error::Modified => "the checksum differs",
            Error::BadOrder { .. } => "the sequence number isn't the expected one",
            Error::InappCksum => "the checksum's type isn't the expected one",
            Error::FieldTooLong => "the message is longer than a message may be",
            Error::Malformed => "not a DER-encoded KRB-SAFE or KRB-PRIV message",
            Error::BadRecord => "the user data aren't a record",
            Error::AfterClose => "a close was accepted before",
            Error::Memory => "out of memory",
            Error::Etype => "the encryption type is neither 17 nor 18",
            Error::Room => "a buffer is too small",
            Error::Empty => "the handle holds nothing",
            Error::KeySize => "the key hasn't the size of its encryption type",
            Error::Mode => "the mode is neither KRB-SAFE nor KRB-PRIV",
            Error::Moment => "the time is outside the years 1970 to 9999",
            Error::Address => "an address has over 40 bytes",
            Error::Argument => "an argument is out of its range",
            Error::Record => "the texts don't fit in a record",
            Error::Clock => "the clock can't be read, or isn't in the years 1970 to 9999",
            Error::Random => "the system has no random bytes",
            Error::Processor => "the processor lacks instructions of the library",
            Error::Repeated => "the number was taken before",
            Error::TooOld => "the number is too far below the highest that was taken",
            // end of texts
            Error::Other(_) => "no answer of this library",
        })
    }
}

#[cfg(feature = "std")]
impl std::error::Error for Error {}

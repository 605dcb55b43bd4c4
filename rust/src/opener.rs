//! Opening, one message at a time.

use alloc::vec::Vec;
use core::fmt;

use crate::address::Address;
use crate::error::Error;
use crate::sys::{self, Handle};
use crate::values::{Body, Carried, Demand, Expect, Key, Mode, Moment};

/// Opens messages under a session key. It keeps no sequence number: the caller demands each.
pub struct Opener {
    handle: Handle,
    has_addresses: bool,
}

impl Opener {
    /// Makes an opener. The key is copied.
    ///
    /// [`Error::Processor`], [`Error::Memory`].
    pub fn new(key: Key<'_>, expect: &Expect) -> Result<Opener, Error> {
        let handle = Handle::opener(key, &expect.raw())?;
        Ok(Opener { handle, has_addresses: true })
    }

    /// Makes one that has no addresses to demand, for [`Opener::open`] alone.
    pub fn of_mode(key: Key<'_>, mode: Mode) -> Result<Opener, Error> {
        let made = Opener::new(key, &Expect::new(mode, Address::CLIENT, Address::CLIENT))?;
        Ok(Opener { has_addresses: false, ..made })
    }

    /// [`Opener::unseal_at`], now. [`Error::Clock`].
    #[cfg(feature = "std")]
    pub fn unseal(&mut self, frame: &[u8], number: u64) -> Result<Vec<u8>, Error> {
        self.unseal_at(frame, number, Moment::now()?)
    }

    /// The user data of a message with this sequence number (RFC 4120 sections 3.4.2 and 3.5.2), opened
    /// at this moment.
    ///
    /// [`Error::Argument`] where the opener has no addresses, [`Error::Wiped`], [`Error::Moment`], a
    /// [refusal](Error::is_refusal), [`Error::Memory`].
    pub fn unseal_at(&mut self, frame: &[u8], number: u64, at: Moment) -> Result<Vec<u8>, Error> {
        if !self.has_addresses {
            return Err(Error::Argument);
        }
        sys::unseal(&mut self.handle, frame, number, &at.raw())
    }

    /// [`Opener::open_at`], now. [`Error::Clock`].
    #[cfg(feature = "std")]
    pub fn open(&mut self, frame: &[u8], demand: &Demand) -> Result<Body, Error> {
        self.open_at(frame, demand, Moment::now()?)
    }

    /// What an authentic message carries, if it meets the demands at this moment. What isn't demanded is
    /// the caller's to compare.
    ///
    /// [`Error::Wiped`], [`Error::Argument`] of a demand that there isn't, [`Error::Moment`], a
    /// [refusal](Error::is_refusal), [`Error::Memory`].
    pub fn open_at(&mut self, frame: &[u8], demand: &Demand, at: Moment) -> Result<Body, Error> {
        let (user_data, carried) = sys::open(&mut self.handle, frame, &demand.raw(), &at.raw())?;
        Ok(Body { user_data, carried: Carried::of(&carried) })
    }

    /// Overwrites the keys: opening returns [`Error::Wiped`] from then on.
    pub fn wipe(&mut self) {
        sys::wipe_opener(&mut self.handle);
    }
}

/// No key.
impl fmt::Debug for Opener {
    fn fmt(&self, to: &mut fmt::Formatter<'_>) -> fmt::Result {
        to.debug_struct("Opener").finish_non_exhaustive()
    }
}

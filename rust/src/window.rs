//! Windows: which sequence numbers were taken, for transports that bring messages in any order.

use crate::error::Error;
use crate::sys;

/// What a window goes on from.
#[derive(Clone, Copy, Debug, PartialEq, Eq)]
pub struct Taken {
    /// The highest number that was taken.
    pub highest: u64,
    /// Whether it was, and the 63 numbers below it: a bit each, 2^63 that of the highest.
    pub bits: u64,
}

/// Takes each sequence number once: any above the highest that it took, and those less than 64 below it.
/// One window belongs to one direction of one key.
///
/// Take the number of a message after [`Opener::open`](crate::Opener::open) opened it without a demand of
/// the number.
///
/// ```
/// use krbrelay::{Error, Window};
///
/// let mut window = Window::new(0);
/// assert_eq!(window.take(70), Ok(()));
/// assert_eq!(window.take(7), Ok(()));
/// assert_eq!(window.take(7), Err(Error::Repeated));
/// assert_eq!(window.take(6), Err(Error::TooOld));
/// ```
#[derive(Clone, Debug, PartialEq, Eq)]
pub struct Window(sys::Window);

impl Window {
    /// A window that takes the numbers from `first` on, and none below.
    #[must_use]
    pub fn new(first: u64) -> Window {
        Window(sys::new_window(first))
    }

    /// Takes a number. [`Error::Repeated`] where it was taken before, [`Error::TooOld`] where it is 64 or
    /// more below the highest. Then the window is as it was.
    pub fn take(&mut self, number: u64) -> Result<(), Error> {
        sys::take_number(&mut self.0, number)
    }

    /// What to store with the effects of the messages.
    #[must_use]
    pub const fn taken(&self) -> Taken {
        Taken { highest: self.0.highest, bits: self.0.taken }
    }
}

/// The window that goes on from what was stored.
impl From<Taken> for Window {
    fn from(taken: Taken) -> Window {
        Window(sys::Window { highest: taken.highest, taken: taken.bits })
    }
}

impl Default for Window {
    fn default() -> Window {
        Window::new(0)
    }
}

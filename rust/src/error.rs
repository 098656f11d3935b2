//! The refusals, and the answer that every call gives.

use std::fmt;

/// What a call gives: what was asked for, or why it was turned away.
///
/// A call that was turned away has changed nothing: neither the device nor a byte of the lent
/// sectors.
pub type Answer<T> = Result<T, Error>;

/// Why a call was turned away. Each has the number that the device's papers give it.
///
/// ```
/// use thinnarom::Error;
///
/// assert_eq!(Error::NoTransfer.number(), 4);
/// assert_eq!(Error::NoTransfer.to_string(), "answer 4: no transfer that way");
/// ```
#[derive(Clone, Copy, Debug, PartialEq, Eq, Hash)]
#[non_exhaustive]
pub enum Error {
    /// 1: the register's number is 0 or above 8. A guest asked for a port that a disk does not
    /// have.
    NoSuchRegister,
    /// 2: the bytes are no device, or one in a state that no device comes to.
    OutOfShape,
    /// 3: the lent sectors are not 512 x capacity bytes.
    WrongLength,
    /// 4: a data word was read or written and the device is not in the middle of a transfer that
    /// way.
    NoTransfer,
    /// 6: setup was asked for a geometry, an identity or lengths outside the limits.
    SetupRefused,
}

impl Error {
    /// The paper's number of this refusal.
    pub const fn number(self) -> u8 {
        match self {
            Error::NoSuchRegister => 1,
            Error::OutOfShape => 2,
            Error::WrongLength => 3,
            Error::NoTransfer => 4,
            Error::SetupRefused => 6,
        }
    }

    /// The refusal with this number, if there is one.
    ///
    /// ```
    /// use thinnarom::Error;
    ///
    /// assert_eq!(Error::numbered(3), Some(Error::WrongLength));
    /// assert_eq!(Error::numbered(0), None); // 0 is "done", which is no refusal
    /// ```
    pub const fn numbered(number: u32) -> Option<Error> {
        match number {
            1 => Some(Error::NoSuchRegister),
            2 => Some(Error::OutOfShape),
            3 => Some(Error::WrongLength),
            4 => Some(Error::NoTransfer),
            6 => Some(Error::SetupRefused),
            _ => None,
        }
    }

    const fn reason(self) -> &'static str {
        match self {
            Error::NoSuchRegister => "no such register",
            Error::OutOfShape => "state out of shape",
            Error::WrongLength => "sector memory of wrong length",
            Error::NoTransfer => "no transfer that way",
            Error::SetupRefused => "setup outside the limits",
        }
    }
}

impl fmt::Display for Error {
    fn fmt(&self, to: &mut fmt::Formatter<'_>) -> fmt::Result {
        write!(to, "answer {}: {}", self.number(), self.reason())
    }
}

impl std::error::Error for Error {}

//! The registers by name.

use crate::Error;

/// A register of the disk, by the name that it is read under.
///
/// Three of them are something else when written, and have that name too: [`Register::Features`],
/// [`Register::Command`] and [`Register::DeviceControl`].
///
/// Calls take a `Register` or any `u8`, such as the number that a guest's port stands for: 0 and
/// numbers above 8 are turned away with [`Error::NoSuchRegister`].
///
/// ```
/// use thinnarom::{Error, Register};
///
/// assert_eq!(u8::from(Register::Status), 7);
/// assert_eq!(Register::Command, Register::Status);
/// assert_eq!(Register::try_from(8), Ok(Register::DeviceControl));
/// assert_eq!(Register::try_from(9), Err(Error::NoSuchRegister));
/// ```
#[derive(Clone, Copy, Debug, PartialEq, Eq, Hash)]
#[repr(u8)]
pub enum Register {
    /// 1: Error when read, Features when written.
    Error = 1,
    /// 2: how many sectors; 0 stands for 256.
    SectorCount = 2,
    /// 3: the sector within its track, from 1; the lowest 8 bits in LBA.
    SectorNumber = 3,
    /// 4: the low byte of the cylinder; bits 8 to 15 in LBA.
    CylinderLow = 4,
    /// 5: the high byte of the cylinder; bits 16 to 23 in LBA.
    CylinderHigh = 5,
    /// 6: the head in bits 0 to 3 (bits 24 to 27 in LBA), DEV in bit 4, LBA in bit 6.
    DeviceHead = 6,
    /// 7: Status when read, which clears the interrupt; Command when written.
    Status = 7,
    /// 8: Alternate Status when read, which clears nothing; Device Control when written.
    AlternateStatus = 8,
}

#[allow(non_upper_case_globals)] // They are names of the enum's cases and stand where those do.
impl Register {
    /// 1 when written.
    pub const Features: Register = Register::Error;
    /// 7 when written: the byte is the command, which runs at once.
    pub const Command: Register = Register::Status;
    /// 8 when written: nIEN in bit 1, SRST in bit 2.
    pub const DeviceControl: Register = Register::AlternateStatus;
}

impl From<Register> for u8 {
    fn from(register: Register) -> u8 {
        register as u8
    }
}

impl TryFrom<u8> for Register {
    type Error = Error;

    fn try_from(number: u8) -> Result<Register, Error> {
        match number {
            1 => Ok(Register::Error),
            2 => Ok(Register::SectorCount),
            3 => Ok(Register::SectorNumber),
            4 => Ok(Register::CylinderLow),
            5 => Ok(Register::CylinderHigh),
            6 => Ok(Register::DeviceHead),
            7 => Ok(Register::Status),
            8 => Ok(Register::AlternateStatus),
            _ => Err(Error::NoSuchRegister),
        }
    }
}

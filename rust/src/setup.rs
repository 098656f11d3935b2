//! What a disk is made from.

use crate::lent::IDENTITY_BYTES;
use crate::{Answer, Error};
use std::fmt;

/// The bytes of a sector.
pub const SECTOR_BYTES: usize = 512;

/// The bytes of a password, all of them significant.
pub const PASSWORD_BYTES: usize = 32;

/// Everything that [`Device::new`](crate::Device::new) asks for. It borrows identity and password,
/// so it makes no copy of the password that somebody would have to wipe.
///
/// There is no default for the master password: whoever knows it opens a disk that is locked at
/// level High.
///
/// ```
/// use thinnarom::{Device, Geometry, Identity, Setup};
///
/// let setup = Setup {
///     geometry: Geometry { cylinders: 4, heads: 2, sectors_per_track: 8 },
///     identity: &Identity::new("0001", "1.0", "MINIBUS DISK")?,
///     master_password: b"32 bytes, kept in the workshop..",
/// };
/// let disk = Device::new(&setup)?;
/// # assert_eq!(disk.geometry(), setup.geometry);
/// # Ok::<(), thinnarom::Error>(())
/// ```
#[derive(Clone, Copy)]
pub struct Setup<'a> {
    /// How many sectors there are, and in which order.
    pub geometry: Geometry,
    /// What IDENTIFY DEVICE shows to every guest.
    pub identity: &'a Identity,
    /// The master password. A guest may change it while the disk is open.
    pub master_password: &'a [u8; PASSWORD_BYTES],
}

/// Shows the geometry alone.
impl fmt::Debug for Setup<'_> {
    fn fmt(&self, to: &mut fmt::Formatter<'_>) -> fmt::Result {
        to.debug_struct("Setup")
            .field("geometry", &self.geometry)
            .finish_non_exhaustive()
    }
}

/// The factory geometry: 1 to 1,024 cylinders, 1 to 16 heads, 1 to 63 sectors per track. Setup
/// refuses other counts.
#[derive(Clone, Copy, Debug, PartialEq, Eq, Hash)]
pub struct Geometry {
    /// Cylinders, 1 to 1,024.
    pub cylinders: u16,
    /// Heads, 1 to 16.
    pub heads: u8,
    /// Sectors per track, 1 to 63.
    pub sectors_per_track: u8,
}

impl Geometry {
    pub(crate) const fn counts(self) -> (u16, u8, u8) {
        (self.cylinders, self.heads, self.sectors_per_track)
    }

    /// How many sectors the disk has.
    pub const fn capacity(self) -> usize {
        self.cylinders as usize * self.heads as usize * self.sectors_per_track as usize
    }

    /// How many bytes of sectors the host lends to each call.
    ///
    /// ```
    /// use thinnarom::Geometry;
    ///
    /// let geometry = Geometry { cylinders: 4, heads: 2, sectors_per_track: 8 };
    /// let sectors = vec![0; geometry.sector_bytes()];
    /// assert_eq!((geometry.capacity(), sectors.len()), (64, 32_768));
    /// ```
    pub const fn sector_bytes(self) -> usize {
        SECTOR_BYTES * self.capacity()
    }
}

/// Serial number, firmware revision and model, each byte 20h to 7Eh, as IDENTIFY DEVICE shows them
/// to every guest.
#[derive(Clone, PartialEq, Eq)]
pub struct Identity {
    /// Words 10 to 19 of IDENTIFY.
    pub serial: [u8; 20],
    /// Words 23 to 26.
    pub firmware: [u8; 8],
    /// Words 27 to 46.
    pub model: [u8; 40],
}

impl Identity {
    /// The three texts, each filled up with spaces.
    ///
    /// # Errors
    ///
    /// [`Error::SetupRefused`] for a serial of more than 20 bytes, a firmware of more than 8 or a
    /// model of more than 40. Bytes outside 20h to 7Eh are refused by
    /// [`Device::new`](crate::Device::new).
    ///
    /// ```
    /// use thinnarom::{Error, Identity};
    ///
    /// let identity = Identity::new("0001", "1.0", "MINIBUS DISK")?;
    /// assert_eq!(&identity.firmware, b"1.0     ");
    /// assert_eq!(Identity::new("0001", "1.0 of May", ""), Err(Error::SetupRefused));
    /// # Ok::<(), Error>(())
    /// ```
    pub fn new(serial: &str, firmware: &str, model: &str) -> Answer<Identity> {
        Ok(Identity {
            serial: filled_up(serial)?,
            firmware: filled_up(firmware)?,
            model: filled_up(model)?,
        })
    }

    pub(crate) fn to_bytes(&self) -> [u8; IDENTITY_BYTES] {
        let mut bytes = [0; IDENTITY_BYTES];
        let texts = self.serial.iter().chain(&self.firmware).chain(&self.model);
        bytes
            .iter_mut()
            .zip(texts)
            .for_each(|(to, from)| *to = *from);
        bytes
    }
}

fn filled_up<const LENGTH: usize>(text: &str) -> Answer<[u8; LENGTH]> {
    let mut bytes = [b' '; LENGTH];
    let room = bytes.get_mut(..text.len()).ok_or(Error::SetupRefused)?;
    room.copy_from_slice(text.as_bytes());
    Ok(bytes)
}

/// Shows the model alone: a serial number is no business of a log's.
impl fmt::Debug for Identity {
    fn fmt(&self, to: &mut fmt::Formatter<'_>) -> fmt::Result {
        to.debug_struct("Identity")
            .field("model", &String::from_utf8_lossy(&self.model).trim_end())
            .finish_non_exhaustive()
    }
}

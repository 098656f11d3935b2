//! The device with memory of its own.

use crate::lent::{self, wipe, Lent, Reply, BUFFER_BYTES, STATE_BYTES};
use crate::{Answer, Error, Geometry, Setup};
use std::fmt;

/// All that a device is but its sectors.
pub(crate) struct Memory {
    pub(crate) state: [u8; STATE_BYTES],
    pub(crate) buffer: [u8; BUFFER_BYTES],
}

impl Memory {
    pub(crate) fn zeroed() -> Memory {
        Memory {
            state: [0; STATE_BYTES],
            buffer: [0; BUFFER_BYTES],
        }
    }
}

impl Drop for Memory {
    fn drop(&mut self) {
        wipe(&mut self.state);
        wipe(&mut self.buffer);
    }
}

/// One disk, alone on its cable, without its sectors: these the host keeps where it likes and lends
/// to each call.
///
/// Each call is one action of the host at the cable, and takes the sectors first:
/// [`Geometry::sector_bytes`] bytes, in a `Vec`, a file mapped into memory, or whatever else gives
/// a `&mut [u8]`. A call is done, or it says why not and has changed nothing.
///
/// In the examples below, `disk` is a new one of 4 x 2 x 8 sectors and `sectors` its memory.
///
/// # What it keeps, and what it forgets
///
/// A device holds both passwords in plain, and its sector buffer may hold the last sector that
/// passed. Both are overwritten with zeros when it is dropped, and stay in one place until then,
/// however often the device is moved. That covers this memory and no other: the library's calls
/// work on copies on the stack, which are not wiped, and what [`Device::to_bytes`] gives away is
/// its new owner's to look after.
///
/// A clone is a second disk in the same state, with attempts of its own: who lets a guest try
/// passwords on clones lets it try more than five.
///
/// # Errors
///
/// Every call that takes sectors gives [`Error::WrongLength`] for another number of bytes than the
/// geometry's. None gives [`Error::OutOfShape`] but [`Device::from_bytes`]: a device that was made
/// is in shape and stays so.
///
/// # Panics
///
/// A call panics where the linked library gives what Thinnarom's never does, such as answer 9.
pub struct Device {
    /// On the heap, so that a device that is moved leaves no copy of its passwords behind.
    memory: Box<Memory>,
}

impl Device {
    /// The bytes that [`Device::to_bytes`] gives: state and buffer.
    pub const BYTES: usize = STATE_BYTES + BUFFER_BYTES;

    /// A disk just powered on, with security off. Setup never looks at sectors: what they hold, the
    /// disk holds.
    ///
    /// # Errors
    ///
    /// [`Error::SetupRefused`] outside the limits that [`Geometry`] and
    /// [`Identity`](crate::Identity) name.
    ///
    /// ```
    /// use thinnarom::{Device, Error, Geometry, Identity, Setup};
    ///
    /// let identity = Identity::new("0001", "1.0", "MINIBUS DISK")?;
    /// let with_heads = |heads| {
    ///     Device::new(&Setup {
    ///         geometry: Geometry { cylinders: 4, heads, sectors_per_track: 8 },
    ///         identity: &identity,
    ///         master_password: &[0x5A; 32],
    ///     })
    /// };
    /// assert!(with_heads(16).is_ok());
    /// assert_eq!(with_heads(17).err(), Some(Error::SetupRefused));
    /// # Ok::<(), Error>(())
    /// ```
    pub fn new(setup: &Setup) -> Answer<Device> {
        let mut memory = Box::new(Memory::zeroed());
        let Memory { state, buffer } = &mut *memory;
        let counts = setup.geometry.counts();
        let identity = setup.identity.to_bytes();
        done(lent::setup(
            state,
            buffer,
            counts,
            &identity,
            setup.master_password,
        ))?;
        Ok(Device { memory })
    }

    /// The factory geometry, which says how many bytes of sectors to lend.
    ///
    /// ```
    /// # let (disk, sectors) = include!("../doctests/small_disk.rs");
    /// assert_eq!(disk.geometry().sector_bytes(), sectors.len());
    /// ```
    pub fn geometry(&self) -> Geometry {
        let state = &self.memory.state;
        Geometry {
            cylinders: u16::from_le_bytes([state[18], state[19]]),
            heads: state[20],
            sectors_per_track: state[21],
        }
    }

    /// Reads a register, by name or by any number.
    ///
    /// # Errors
    ///
    /// [`Error::NoSuchRegister`] for 0 and for numbers above 8.
    ///
    /// ```
    /// # let (mut disk, mut sectors) = include!("../doctests/small_disk.rs");
    /// use thinnarom::{Error, Register};
    ///
    /// assert_eq!(disk.read_register(&mut sectors, Register::Status), Ok(0x50));
    /// assert_eq!(disk.read_register(&mut sectors, 9u8), Err(Error::NoSuchRegister));
    /// assert_eq!(disk.read_register(&mut sectors[1..], 9u8), Err(Error::WrongLength));
    /// ```
    pub fn read_register(&mut self, sectors: &mut [u8], register: impl Into<u8>) -> Answer<u8> {
        value(self.lend(sectors).read_register(register.into()))
    }

    /// Writes a register, by name or by any number. A command runs to its first data word, or to
    /// its end, at once.
    ///
    /// # Errors
    ///
    /// [`Error::NoSuchRegister`] for 0 and for numbers above 8. A write that the disk ignores, and
    /// a command that it aborts, are done: what came of them stands in Status and Error, for the
    /// guest to read.
    ///
    /// ```
    /// # let (mut disk, mut sectors) = include!("../doctests/small_disk.rs");
    /// use thinnarom::Register;
    ///
    /// disk.write_register(&mut sectors, Register::Command, 0x00)?; // there is no such command
    /// assert_eq!(disk.read_register(&mut sectors, Register::Status)?, 0x51);
    /// assert_eq!(disk.read_register(&mut sectors, Register::Error)?, 0x04);
    /// # Ok::<(), thinnarom::Error>(())
    /// ```
    pub fn write_register(
        &mut self,
        sectors: &mut [u8],
        register: impl Into<u8>,
        value: u8,
    ) -> Answer<()> {
        done(self.lend(sectors).write_register(register.into(), value))
    }

    /// Reads a data word; its low byte is the sector's first.
    ///
    /// # Errors
    ///
    /// [`Error::NoTransfer`] where the disk has no word for the host.
    ///
    /// ```
    /// # let (mut disk, mut sectors) = include!("../doctests/small_disk.rs");
    /// use thinnarom::{Error, Register};
    ///
    /// assert_eq!(disk.read_word(&mut sectors), Err(Error::NoTransfer));
    /// disk.write_register(&mut sectors, Register::Command, 0xEC)?; // IDENTIFY DEVICE
    /// assert_eq!(disk.read_word(&mut sectors)?, 0x0040);
    /// # Ok::<(), Error>(())
    /// ```
    pub fn read_word(&mut self, sectors: &mut [u8]) -> Answer<u16> {
        value(self.lend(sectors).read_word())
    }

    /// Writes a data word. A sector is stored when its 256th word arrives, and not before.
    ///
    /// # Errors
    ///
    /// [`Error::NoTransfer`] where the disk wants no word from the host.
    ///
    /// ```
    /// # let (mut disk, mut sectors) = include!("../doctests/small_disk.rs");
    /// use thinnarom::Register;
    ///
    /// disk.write_register(&mut sectors, Register::Command, 0x30)?; // WRITE SECTORS, the first one
    /// for _ in 0..255 {
    ///     disk.write_word(&mut sectors, 0x1234)?;
    /// }
    /// assert_eq!(sectors[0], 0);
    /// disk.write_word(&mut sectors, 0x1234)?;
    /// assert_eq!(sectors[..2], [0x34, 0x12]);
    /// # Ok::<(), thinnarom::Error>(())
    /// ```
    pub fn write_word(&mut self, sectors: &mut [u8], word: u16) -> Answer<()> {
        done(self.lend(sectors).write_word(word))
    }

    /// Reads as many data words as fit into `out`, each low byte first, and gives how many have
    /// passed: what that many calls of [`Device::read_word`] would do, up to the first that is
    /// turned away. It goes on over the ends of sectors within one command. Bytes of `out` behind
    /// the words stay as they were.
    ///
    /// # Errors
    ///
    /// [`Error::NoTransfer`] where already the first word is turned away.
    ///
    /// ```
    /// # let (mut disk, mut sectors) = include!("../doctests/small_disk.rs");
    /// use thinnarom::Register;
    ///
    /// disk.write_register(&mut sectors, Register::SectorCount, 2)?;
    /// disk.write_register(&mut sectors, Register::Command, 0x20)?; // READ SECTORS
    /// let mut blocks = [0; 2_000];
    /// assert_eq!(disk.read_words(&mut sectors, &mut blocks)?, 512);
    /// assert_eq!(blocks[..1_024], sectors[..1_024]);
    /// # Ok::<(), thinnarom::Error>(())
    /// ```
    pub fn read_words(&mut self, sectors: &mut [u8], out: &mut [u8]) -> Answer<usize> {
        value(self.lend(sectors).read_words(out))
    }

    /// Writes the data words in `bytes`, each low byte first, and gives how many have passed: what
    /// that many calls of [`Device::write_word`] would do, up to the first that is turned away. An
    /// odd last byte is left out.
    ///
    /// # Errors
    ///
    /// [`Error::NoTransfer`] where already the first word is turned away.
    ///
    /// ```
    /// # let (mut disk, mut sectors) = include!("../doctests/small_disk.rs");
    /// use thinnarom::Register;
    ///
    /// disk.write_register(&mut sectors, Register::Command, 0x30)?; // WRITE SECTORS
    /// assert_eq!(disk.write_words(&mut sectors, &[0xAB; 1_024])?, 256);
    /// assert_eq!(sectors[..512], [0xAB; 512]);
    /// # Ok::<(), thinnarom::Error>(())
    /// ```
    pub fn write_words(&mut self, sectors: &mut [u8], bytes: &[u8]) -> Answer<usize> {
        value(self.lend(sectors).write_words(bytes))
    }

    /// Hardware reset: it leaves what [`Device::power_on`] leaves.
    ///
    /// ```
    /// # let (mut disk, mut sectors) = include!("../doctests/small_disk.rs");
    /// disk.hardware_reset(&mut sectors)?;
    /// # Ok::<(), thinnarom::Error>(())
    /// ```
    pub fn hardware_reset(&mut self, sectors: &mut [u8]) -> Answer<()> {
        done(self.lend(sectors).hardware_reset())
    }

    /// Powers the disk off and on, which a host does before another guest's turn: start values, a
    /// zeroed buffer, five attempts, and locked if a password is set. Passwords and sectors stay.
    ///
    /// ```
    /// # let (mut disk, mut sectors) = include!("../doctests/small_disk.rs");
    /// use thinnarom::{Error, Register};
    ///
    /// disk.write_register(&mut sectors, Register::Command, 0xE8)?; // WRITE BUFFER
    /// disk.power_on(&mut sectors)?;
    /// assert_eq!(disk.write_word(&mut sectors, 1), Err(Error::NoTransfer));
    /// # Ok::<(), Error>(())
    /// ```
    pub fn power_on(&mut self, sectors: &mut [u8]) -> Answer<()> {
        done(self.lend(sectors).power_on())
    }

    /// Whether the interrupt line is raised. Hosts ask after each call that may have changed it;
    /// the guest clears it by reading Status.
    ///
    /// ```
    /// # let (mut disk, mut sectors) = include!("../doctests/small_disk.rs");
    /// use thinnarom::Register;
    ///
    /// disk.write_register(&mut sectors, Register::Command, 0x10)?; // RECALIBRATE
    /// assert!(disk.line(&mut sectors)?);
    /// disk.read_register(&mut sectors, Register::Status)?;
    /// assert!(!disk.line(&mut sectors)?);
    /// # Ok::<(), thinnarom::Error>(())
    /// ```
    pub fn line(&mut self, sectors: &mut [u8]) -> Answer<bool> {
        value(self.lend(sectors).line()).map(|raised: u8| raised != 0)
    }

    /// The device as bytes, for a host that keeps it over a restart: state, then buffer.
    ///
    /// They hold both passwords in plain. Where they are kept, whoever reads that place opens the
    /// disk; and who puts old bytes back gives back the attempts that were left then.
    ///
    /// ```
    /// # let (mut disk, mut sectors) = include!("../doctests/small_disk.rs");
    /// use thinnarom::{Device, Register};
    ///
    /// disk.write_register(&mut sectors, Register::SectorCount, 7)?;
    /// let mut again = Device::from_bytes(&disk.to_bytes())?;
    /// assert_eq!(again.read_register(&mut sectors, Register::SectorCount)?, 7);
    /// # Ok::<(), thinnarom::Error>(())
    /// ```
    pub fn to_bytes(&self) -> [u8; Device::BYTES] {
        let mut bytes = [0; Device::BYTES];
        let (state, buffer) = bytes.split_at_mut(STATE_BYTES);
        state.copy_from_slice(&self.memory.state);
        buffer.copy_from_slice(&self.memory.buffer);
        bytes
    }

    /// The device that [`Device::to_bytes`] gave these bytes of.
    ///
    /// # Errors
    ///
    /// [`Error::OutOfShape`] where the bytes are no device, or are not [`Device::BYTES`] many. That
    /// any others are the bytes of the device that was kept, nothing here can tell.
    ///
    /// ```
    /// use thinnarom::{Device, Error};
    ///
    /// assert_eq!(Device::from_bytes(&[0; Device::BYTES]).err(), Some(Error::OutOfShape));
    /// assert_eq!(Device::from_bytes(b"too short").err(), Some(Error::OutOfShape));
    /// ```
    pub fn from_bytes(bytes: &[u8]) -> Answer<Device> {
        if bytes.len() != Device::BYTES {
            return Err(Error::OutOfShape);
        }
        let mut device = Device {
            memory: Box::new(Memory::zeroed()),
        };
        let (state, buffer) = bytes.split_at(STATE_BYTES);
        device.memory.state.copy_from_slice(state);
        device.memory.buffer.copy_from_slice(buffer);
        // No disk has no sectors, so a device in shape turns this away for their length, which it
        // tests after the shape.
        match device.line(&mut []) {
            Err(Error::WrongLength) => Ok(device),
            _ => Err(Error::OutOfShape),
        }
    }

    fn lend<'a>(&'a mut self, sectors: &'a mut [u8]) -> Lent<'a> {
        let Memory { state, buffer } = &mut *self.memory;
        Lent {
            state,
            buffer,
            sectors,
        }
    }
}

impl Clone for Device {
    fn clone(&self) -> Device {
        let mut memory = Box::new(Memory::zeroed());
        memory.state.copy_from_slice(&self.memory.state);
        memory.buffer.copy_from_slice(&self.memory.buffer);
        Device { memory }
    }
}

/// Shows the geometry alone: no password, no word of the buffer, no serial number.
///
/// ```
/// # let (disk, _) = include!("../doctests/small_disk.rs");
/// let shown = "Device { geometry: Geometry { cylinders: 4, heads: 2, sectors_per_track: 8 }, .. }";
/// assert_eq!(format!("{disk:?}"), shown);
/// ```
impl fmt::Debug for Device {
    fn fmt(&self, to: &mut fmt::Formatter<'_>) -> fmt::Result {
        to.debug_struct("Device")
            .field("geometry", &self.geometry())
            .finish_non_exhaustive()
    }
}

/// The value of a call that was done, as the type that holds every value which such a call has.
fn value<T: TryFrom<u32>>(reply: Reply) -> Answer<T> {
    let given = match reply.answer {
        0 => T::try_from(reply.value).ok().map(Ok),
        number => Error::numbered(number).map(Err),
    };
    given.unwrap_or_else(|| panic!("the linked library is not Thinnarom's: it gave {reply:?}"))
}

/// The same of setup, writes and resets, whose value is always 0.
fn done(reply: Reply) -> Answer<()> {
    value(reply).map(|_: u8| ())
}

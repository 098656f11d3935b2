//! The device end of one ATA-3 disk, for a host that emulates one: a safe crate over Thinnarom's
//! static library, whose code is proved in Rattle.
//!
//! The host keeps a [`Device`] and the disk's sectors. Whatever a guest does at the disk's ports,
//! the host hands to the device, one call for each register and data word, and lends it the
//! sectors:
//!
//! ```
//! use thinnarom::{Device, Geometry, Identity, Register, Setup};
//!
//! // 64 sectors. They are the host's: a Vec here, a mapped file elsewhere.
//! let geometry = Geometry { cylinders: 4, heads: 2, sectors_per_track: 8 };
//! let mut sectors = vec![0; geometry.sector_bytes()];
//! sectors[512..517].copy_from_slice(b"token");
//!
//! let mut disk = Device::new(&Setup {
//!     geometry,
//!     identity: &Identity::new("0001", "1.0", "MINIBUS DISK")?,
//!     master_password: b"32 bytes, kept in the workshop..",
//! })?;
//!
//! // What a guest's driver does to read sector 1: READ SECTORS is 20h, and 40h says LBA.
//! disk.write_register(&mut sectors, Register::SectorCount, 1)?;
//! disk.write_register(&mut sectors, Register::SectorNumber, 1)?;
//! disk.write_register(&mut sectors, Register::CylinderLow, 0)?;
//! disk.write_register(&mut sectors, Register::CylinderHigh, 0)?;
//! disk.write_register(&mut sectors, Register::DeviceHead, 0x40)?;
//! disk.write_register(&mut sectors, Register::Command, 0x20)?;
//! assert_eq!(disk.read_register(&mut sectors, Register::Status)?, 0x58); // a word is due
//!
//! let mut block = [0; 512];
//! assert_eq!(disk.read_words(&mut sectors, &mut block)?, 256);
//! assert_eq!(&block[..5], b"token");
//! # Ok::<(), thinnarom::Error>(())
//! ```
//!
//! # What is where
//!
//! - [`Device`] has the calls, and keeps and wipes the device's memory.
//! - [`Setup`], [`Geometry`] and [`Identity`] are what a disk is made from.
//! - [`Register`] names the registers; calls take any `u8` in a register's place too.
//! - [`Answer`] is what a call gives, [`Error`] why it was turned away.
//! - [`lent`] has the same calls over memory that the caller keeps, with the papers' numbers.
//!
//! # What is proved, and what is not
//!
//! The library's calls always return, touch nothing but what is lent, and give just what ATA-3 and
//! the house rules give; a guest that never sends a right password learns nothing of sectors and
//! passwords (docs/ROOM.md of the repository). This crate and what the Rust compiler makes of it
//! are not proved: they are small, and tested against an independent device. docs/EMBEDDING.md says
//! what a host has to know, in C and in Rust.
//!
//! # Building
//!
//! The build links `crates/thinnarom/out/libthinnarom.a` of the repository, or the library whose
//! absolute path stands in the environment variable `THINNAROM_LIBRARY`.

#![deny(missing_docs)]
#![deny(unsafe_code)]

mod device;
mod error;
pub mod lent;
mod register;
mod setup;

pub use device::Device;
pub use error::{Answer, Error};
pub use register::Register;
pub use setup::{Geometry, Identity, Setup, PASSWORD_BYTES, SECTOR_BYTES};

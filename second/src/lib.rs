//! The device end of one ATA-3 disk, device 0 alone on its cable, and the replay of recordings on it.
//!
//! Each module carries one section of document 01 and cites it; "reading" is a numbered item of the
//! readings of document 01. To find the rule of a register, start at `device` (the host actions) and
//! `registers`; of a command, at `commands`; of a data word, at `transfer`; of a password, at `lock`.

#![forbid(unsafe_code)]

pub mod address;
pub mod commands;
pub mod device;
pub mod geometry;
pub mod identify;
pub mod lock;
pub mod registers;
pub mod replay;
pub mod transfer;

pub use device::{Answer, Device};
pub use geometry::Geometry;
pub use identify::Identity;
pub use replay::replay;

/// Document 01, Commands: a sector, the sector buffer and every block are 256 words, 512 bytes.
pub type Block = [u16; WORDS];

/// The words of a block.
pub const WORDS: usize = 256;

/// A block of zeros: the buffer when it is zeroed.
pub const ZERO_BLOCK: Block = [0; WORDS];

/// The bytes of a sector.
pub const SECTOR: usize = 512;

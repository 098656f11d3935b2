//! Document 01, Commands: "Either an address names a sector or it names its fault".

use crate::geometry::Translation;
use crate::registers::{Registers, SECTOR_NUMBER};

/// What the address in registers 3 to 6 names.
#[derive(Clone, Copy, Debug, PartialEq, Eq)]
pub enum Address {
    /// The number of the sector on the disk, below capacity.
    Sector(u32),
    Fault,
}

impl Address {
    /// Document 01, Commands: the address in the registers, LBA or CHS by bit 6 of Device/Head.
    pub fn named(registers: &Registers, translation: &Translation, capacity: u32) -> Address {
        let number = if registers.lba() {
            Some(lba(registers))
        } else {
            chs(registers, translation)
        };
        match number {
            Some(number) if number < capacity => Address::Sector(number),
            _ => Address::Fault,
        }
    }
}

/// Document 01, Commands: "28 bits, Sector Number lowest, head nibble highest".
fn lba(registers: &Registers) -> u32 {
    let low = u32::from(registers.get(SECTOR_NUMBER));
    registers.head() << 24 | registers.cylinder() << 8 | low
}

/// Document 01, Commands: "(c x H + h) x S + s - 1", s from 1 to S, h below H, c below cylinders.
fn chs(registers: &Registers, translation: &Translation) -> Option<u32> {
    let (c, h) = (registers.cylinder(), registers.head());
    let s = u32::from(registers.get(SECTOR_NUMBER));
    let good = (1..=translation.sectors).contains(&s)
        && h < translation.heads
        && c < translation.cylinders;
    good.then(|| (c * translation.heads + h) * translation.sectors + s - 1)
}

/// Document 01, Commands: the first sector number past the last that this way of addressing names;
/// since "the successor steps s, then h, then c", sectors reached one after another fault there.
pub fn end(registers: &Registers, translation: &Translation, capacity: u32) -> u32 {
    if registers.lba() {
        capacity
    } else {
        translation.total()
    }
}

/// Document 01, Commands: shows a sector number as an address in registers 3 to 6; in CHS the number
/// past the end is c = cylinders, h = 0, s = 1 (reading 15).
pub fn show(registers: &mut Registers, translation: &Translation, number: u32) {
    if registers.lba() {
        registers.set(SECTOR_NUMBER, number as u8);
        registers.set_cylinder(number >> 8);
        registers.set_head(number >> 24);
    } else {
        let track = number / translation.sectors;
        registers.set(SECTOR_NUMBER, (number % translation.sectors) as u8 + 1);
        registers.set_head(track % translation.heads);
        registers.set_cylinder(track / translation.heads);
    }
}

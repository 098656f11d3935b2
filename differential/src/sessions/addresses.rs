//! Choosing sector addresses and writing them into the registers.

use crate::guest::Guest;
use crate::memory::{CAPACITY, DEV, LBA};

#[derive(Clone, Copy, Debug)]
pub enum Address {
    Lba(u32),
    Chs(u32, u32, u32),
}

/// The address of sector `index`, in LBA or in the translation the guest remembers.
pub fn address_of(guest: &mut Guest, index: u32) -> Address {
    let shape = guest.memory.translation;
    if index >= shape.total() || guest.random.one_in(2) {
        return Address::Lba(index);
    }
    let track = index / shape.sectors;
    Address::Chs(
        track / shape.heads,
        track % shape.heads,
        index % shape.sectors + 1,
    )
}

pub fn good_address(guest: &mut Guest) -> Address {
    let index = match guest.random.below(6) {
        0 => 0,
        1 => CAPACITY - 1,
        2 => guest.memory.translation.total() - 1,
        _ => guest.random.below(CAPACITY),
    };
    address_of(guest, index)
}

/// An address a few sectors before the end, so that a run passes it.
pub fn address_near_end(guest: &mut Guest) -> Address {
    let back = guest.random.between(1, 4);
    if guest.random.one_in(2) {
        return Address::Lba(CAPACITY - back);
    }
    let index = guest.memory.translation.total().saturating_sub(back);
    address_of(guest, index)
}

/// An address just outside in one field, or far outside.
pub fn bad_address(guest: &mut Guest) -> Address {
    let shape = guest.memory.translation;
    let (cylinder, head, sector) = (
        guest.random.below(shape.cylinders),
        guest.random.below(shape.heads),
        guest.random.between(1, shape.sectors),
    );
    match guest.random.below(9) {
        0 => Address::Lba(CAPACITY),
        1 => Address::Lba(CAPACITY + guest.random.below(200)),
        2 => Address::Lba(1 << guest.random.between(6, 27)),
        3 => Address::Lba(0x0FFF_FFFF),
        4 => Address::Chs(shape.cylinders, head, sector),
        5 => Address::Chs(cylinder, shape.heads % 16, sector),
        6 => Address::Chs(cylinder, head, shape.sectors + 1),
        7 => Address::Chs(cylinder, head, 0),
        _ => Address::Chs(cylinder + 256 * guest.random.between(1, 255), head, sector),
    }
}

/// Mostly good, sometimes near the end, seldom bad.
pub fn likely_address(guest: &mut Guest) -> Address {
    match guest.random.below(10) {
        0 => bad_address(guest),
        1 | 2 => address_near_end(guest),
        _ => good_address(guest),
    }
}

/// Writes count and address into registers 2 to 6, leaving out some that already stand.
pub fn aim(guest: &mut Guest, address: Address, count: u8) {
    let spare_bits = guest.random.pick(&[0xA0, 0xA0, 0xA0, 0x00, 0x20, 0x80]);
    let values = match address {
        Address::Lba(number) => {
            let [low, middle, high, top] = number.to_le_bytes();
            [count, low, middle, high, top & 0x0F | LBA | spare_bits]
        }
        Address::Chs(cylinder, head, sector) => {
            let [low, high, ..] = cylinder.to_le_bytes();
            let top = (head as u8 & 0x0F) | spare_bits;
            [count, sector as u8, low, high, top]
        }
    };
    let first = match guest.random.one_in(4) {
        true => guest.random.below(5) as usize,
        false => 0,
    };
    for step in 0..5 {
        let place = (first + step) % 5;
        let stands = guest.memory.registers[place + 2] == values[place];
        if !(stands && guest.random.one_in(2)) {
            guest.write(place as u8 + 2, values[place]);
        }
    }
    if guest.random.one_in(16) {
        let features = guest.random.byte();
        guest.write(1, features);
    }
    debug_assert!(values[4] & DEV == 0);
}

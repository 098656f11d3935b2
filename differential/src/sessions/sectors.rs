//! Scripts over the sectors: read, write, verify, seek and recalibrate.

use super::addresses::{
    address_near_end, address_of, aim, bad_address, good_address, likely_address, Address,
};
use crate::guest::Guest;
use crate::memory::CAPACITY;

pub const READS: [u8; 2] = [0x20, 0x21];
pub const WRITES: [u8; 2] = [0x30, 0x31];
pub const VERIFIES: [u8; 2] = [0x40, 0x41];

fn small_count(guest: &mut Guest) -> u8 {
    match guest.random.below(8) {
        0 => guest.random.between(4, 12) as u8,
        1 | 2 => guest.random.between(2, 3) as u8,
        _ => 1,
    }
}

pub fn read_sectors(guest: &mut Guest) {
    let (address, count) = (likely_address(guest), small_count(guest));
    aim(guest, address, count);
    let code = guest.random.pick(&READS);
    guest.command(code);
    guest.carry_to_end();
}

pub fn write_sectors(guest: &mut Guest) {
    let (address, count) = (likely_address(guest), small_count(guest));
    aim(guest, address, count);
    let code = guest.random.pick(&WRITES);
    guest.command(code);
    guest.carry_to_end();
}

pub fn write_then_read_back(guest: &mut Guest) {
    let index = guest.random.below(CAPACITY);
    let count = small_count(guest);
    for code in [0x30, 0x20] {
        let address = address_of(guest, index);
        aim(guest, address, count);
        guest.command(code);
        guest.carry_to_end();
        if guest.random.one_in(6) {
            guest.hardware_or_power();
        }
    }
}

/// Counts up to 256 from near the end, so that the bad address shows with the count left.
pub fn run_over_the_end(guest: &mut Guest) {
    let address = address_near_end(guest);
    let count = match guest.random.below(3) {
        0 => 0,
        1 => guest.random.between(2, 8) as u8,
        _ => guest.random.byte(),
    };
    aim(guest, address, count);
    let code = guest.random.pick(&[0x20, 0x21, 0x30, 0x31, 0x40, 0x41]);
    guest.command(code);
    guest.carry_to_end();
    guest.look_at_registers();
}

/// The next command starts from the registers the one before left behind.
pub fn command_without_aiming(guest: &mut Guest) {
    if guest.random.one_in(2) {
        let count = guest.random.between(1, 3) as u8;
        guest.write(2, count);
    }
    let code = guest.random.pick(&[0x20, 0x30, 0x40, 0x70]);
    guest.command(code);
    guest.look_after_command();
    guest.carry(512, crate::guest::Data::Random);
    guest.look_at_registers();
}

pub fn verify_sectors(guest: &mut Guest) {
    let address = likely_address(guest);
    let count = guest.random.pick(&[0, 1, 2, 8, 63, 64, 65, 255]);
    aim(guest, address, count);
    let code = guest.random.pick(&VERIFIES);
    guest.command(code);
    guest.look_after_command();
    guest.look_at_registers();
}

pub fn first_address_bad(guest: &mut Guest) {
    let address = bad_address(guest);
    let count = guest.random.byte();
    aim(guest, address, count);
    let code = guest
        .random
        .pick(&[0x20, 0x21, 0x30, 0x31, 0x40, 0x41, 0x70, 0x7F]);
    guest.command(code);
    guest.carry(4, crate::guest::Data::Random);
    guest.look_at_registers();
    guest.word_that_is_not_due();
}

pub fn seek(guest: &mut Guest) {
    let address = match guest.random.one_in(2) {
        true => bad_address(guest),
        false => good_address(guest),
    };
    let (count, code) = (guest.random.byte(), guest.random.between(0x70, 0x7F));
    aim(guest, address, count);
    guest.command(code as u8);
    guest.look_after_command();
    guest.look_at_registers();
}

pub fn recalibrate(guest: &mut Guest) {
    let address = likely_address(guest);
    let (count, code) = (guest.random.byte(), guest.random.between(0x10, 0x1F));
    aim(guest, address, count);
    guest.command(code as u8);
    guest.look_after_command();
    guest.look_at_registers();
}

pub fn many_single_sectors(guest: &mut Guest) {
    for _ in 0..guest.random.between(2, 8) {
        let address = good_address(guest);
        aim(guest, address, 1);
        let code = guest.random.pick(&[0x20, 0x30]);
        guest.command(code);
        guest.carry_to_end();
    }
}

/// Shows every byte stored so far, those that went to a wrong place too.
pub fn read_whole_disk(guest: &mut Guest) {
    let quiet = std::mem::take(&mut guest.words_per_aside);
    let (address, count) = match guest.random.below(3) {
        0 => (Address::Chs(0, 0, 1), 64),
        1 => (Address::Lba(0), 0),
        _ => (Address::Lba(0), 64),
    };
    aim(guest, address, count);
    guest.command(0x20);
    guest.carry_to_end();
    guest.words_per_aside = quiet;
}

pub fn write_whole_disk(guest: &mut Guest) {
    let quiet = std::mem::take(&mut guest.words_per_aside);
    let count = guest.random.pick(&[0, 64, 65, 255]);
    aim(guest, Address::Lba(0), count);
    guest.command(0x30);
    guest.carry_to_end();
    guest.words_per_aside = quiet;
}

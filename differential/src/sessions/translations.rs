//! Scripts over 91h, which changes what a CHS address means.

use super::addresses::aim;
use super::addresses::Address;
use super::buffers::read_identify_up_to;
use super::sectors::{read_sectors, run_over_the_end, seek, verify_sectors, write_then_read_back};
use crate::guest::Guest;
use crate::memory::DEV;

fn send_translation(guest: &mut Guest, heads: u32, sectors: u32) {
    let high_nibble = guest.random.byte() & 0xF0 & !DEV;
    guest.write(2, sectors as u8);
    guest.write(6, (heads as u8 - 1) | high_nibble);
    guest.command(0x91);
    guest.look_after_command();
}

pub fn change_translation(guest: &mut Guest) {
    let heads = guest.random.between(1, 16);
    let sectors = guest.random.between(1, 64 / heads);
    send_translation(guest, heads, sectors);
    if guest.random.one_in(2) {
        read_identify_up_to(guest, 60);
    }
    for _ in 0..guest.random.between(1, 3) {
        let use_it = guest.random.pick(&[
            read_sectors as fn(&mut Guest),
            run_over_the_end,
            seek,
            verify_sectors,
            write_then_read_back,
        ]);
        use_it(guest);
    }
}

/// No sectors, or a track larger than the disk: the old translation stays.
pub fn refused_translation(guest: &mut Guest) {
    let heads = guest.random.between(1, 16);
    let sectors = match guest.random.below(3) {
        0 => 0,
        1 => 255,
        _ => (64 / heads + 1).min(255),
    };
    send_translation(guest, heads, sectors);
    guest.look_at_registers();
    let last = guest.memory.translation;
    aim(
        guest,
        Address::Chs(last.cylinders - 1, last.heads - 1, last.sectors),
        1,
    );
    guest.command(0x40);
    guest.look_after_command();
}

pub fn any_translation(guest: &mut Guest) {
    let (heads, sectors) = (guest.random.between(1, 16), guest.random.between(0, 255));
    send_translation(guest, heads, sectors);
    read_identify_up_to(guest, 60);
}

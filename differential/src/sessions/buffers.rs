//! Scripts over the one buffer every block passes through, and IDENTIFY.

use crate::guest::{Data, Guest};

pub fn read_whole_identify(guest: &mut Guest) {
    guest.command(0xEC);
    guest.carry_to_end();
}

/// Reads the first words only; whatever comes next cuts the transfer.
pub fn read_identify_up_to(guest: &mut Guest, words: u32) {
    guest.command(0xEC);
    guest.carry(words, Data::Random);
}

/// Word 128 tells the lock state, so every lock script ends here.
pub fn read_lock_word(guest: &mut Guest) {
    let words = guest.random.pick(&[129, 129, 130, 200, 256]);
    read_identify_up_to(guest, words);
    if guest.random.one_in(2) {
        guest.poll();
    }
}

pub fn partial_identify(guest: &mut Guest) {
    let words = guest.random.below(256);
    read_identify_up_to(guest, words);
    guest.look_after_command();
    if guest.random.one_in(2) {
        read_whole_buffer(guest);
    }
}

pub fn read_whole_buffer(guest: &mut Guest) {
    guest.command(0xE4);
    guest.carry_to_end();
}

pub fn partial_read_buffer(guest: &mut Guest) {
    guest.command(0xE4);
    let words = guest.random.below(256);
    guest.carry(words, Data::Random);
    guest.look_after_command();
}

pub fn write_whole_buffer(guest: &mut Guest) {
    guest.command(0xE8);
    guest.carry_to_end();
    if guest.random.one_in(2) {
        read_whole_buffer(guest);
    }
}

pub fn partial_write_buffer(guest: &mut Guest) {
    guest.command(0xE8);
    let (words, data) = (guest.random.below(256), guest.data());
    guest.carry(words, data);
    guest.look_after_command();
    read_whole_buffer(guest);
}

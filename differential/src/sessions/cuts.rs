//! Scripts that end transfers early, at chosen words and by every possible interruption.

use super::addresses::{aim, likely_address};
use super::buffers::read_whole_buffer;
use super::sectors::{READS, WRITES};
use crate::guest::Guest;
use crate::recording::Record;

/// Commands that may fall into an open transfer; E4h stands often, since it shows the buffer.
const CUTTING_COMMANDS: [u8; 29] = [
    0xE4, 0xE4, 0xE4, 0xE4, 0xE4, 0xE4, 0xEC, 0xEC, 0x20, 0x20, 0x21, 0x30, 0x30, 0x31, 0x40, 0x41,
    0x70, 0x10, 0x90, 0x90, 0x91, 0xE8, 0xF1, 0xF2, 0xF3, 0xF4, 0xF6, 0x00, 0xFF,
];

fn word_to_cut_at(guest: &mut Guest) -> u32 {
    let places = [0, 1, 2, 16, 17, 18, 254, 255, 256, 257, 258, 511, 512];
    let place = match guest.random.one_in(4) {
        true => guest.random.below(600),
        false => guest.random.pick(&places),
    };
    place.min(guest.memory.words_left().saturating_sub(1))
}

/// Carries the open transfer to some word and interrupts it there.
pub fn cut_open_transfer_somewhere(guest: &mut Guest) {
    let (words, data) = (word_to_cut_at(guest), guest.data());
    guest.carry(words, data);
    if guest.random.one_in(2) {
        guest.poll();
    }
    match guest.random.below(8) {
        0 | 1 => guest.pulse_software_reset(),
        2 => guest.send(Record::HardwareReset),
        3 => guest.send(Record::PowerOn),
        _ => {
            let code = match guest.random.one_in(40) {
                true => 0xF5,
                false => guest.random.pick(&CUTTING_COMMANDS),
            };
            guest.command(code);
        }
    }
    guest.look_after_command();
}

fn finish_or_cut_again(guest: &mut Guest) {
    if guest.random.one_in(4) {
        cut_open_transfer_somewhere(guest);
    }
    guest.carry_to_end();
    if guest.random.one_in(2) {
        read_whole_buffer(guest);
    }
}

pub fn cut_read(guest: &mut Guest) {
    let address = likely_address(guest);
    let (count, code) = (guest.random.between(1, 4), guest.random.pick(&READS));
    aim(guest, address, count as u8);
    guest.command(code);
    cut_open_transfer_somewhere(guest);
    finish_or_cut_again(guest);
}

/// The partial sector must not be stored, so the same address is read afterwards.
pub fn cut_write(guest: &mut Guest) {
    let address = likely_address(guest);
    let (count, code) = (guest.random.between(1, 4), guest.random.pick(&WRITES));
    aim(guest, address, count as u8);
    guest.command(code);
    cut_open_transfer_somewhere(guest);
    if guest.random.one_in(2) {
        finish_or_cut_again(guest);
    }
    guest.settle();
    aim(guest, address, count as u8);
    guest.command(0x20);
    guest.carry_to_end();
}

pub fn cut_buffer_transfer(guest: &mut Guest) {
    let code = guest.random.pick(&[0xEC, 0xE4, 0xE8, 0xE8]);
    guest.command(code);
    cut_open_transfer_somewhere(guest);
    finish_or_cut_again(guest);
}

/// The next script finds a transfer half done.
pub fn leave_transfer_open(guest: &mut Guest) {
    let address = likely_address(guest);
    aim(guest, address, 2);
    let code = guest
        .random
        .pick(&[0x20, 0x30, 0xEC, 0xE4, 0xE8, 0xF1, 0xF2, 0xF6]);
    guest.command(code);
    let (words, data) = (word_to_cut_at(guest), guest.data());
    guest.carry(words, data);
    guest.poll();
}

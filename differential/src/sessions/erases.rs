//! Scripts over ERASE PREPARE and ERASE UNIT.

use super::buffers::{read_lock_word, read_whole_buffer, read_whole_identify};
use super::cuts::cut_open_transfer_somewhere;
use super::guesses::{any_guess, guessed_block, send_guess, wrong_guess, Guess};
use super::passwords::{become_locked, spend_some_attempts};
use super::sectors::{read_sectors, read_whole_disk, write_sectors};
use crate::guest::Guest;

const PREPARE: u8 = 0xF3;
const ERASE: u8 = 0xF4;

fn prepare(guest: &mut Guest) {
    guest.command(PREPARE);
    if guest.random.one_in(2) {
        guest.look_after_command();
    }
}

fn look_after_erase(guest: &mut Guest) {
    read_lock_word(guest);
    match guest.random.below(6) {
        0 => read_whole_disk(guest),
        1 => read_whole_buffer(guest),
        2 | 3 => read_sectors(guest),
        _ => {}
    }
}

pub fn erase_while_open(guest: &mut Guest) {
    write_sectors(guest);
    prepare(guest);
    let guess = any_guess(guest);
    send_guess(guest, ERASE, guess);
    look_after_erase(guest);
}

pub fn erase_while_locked(guest: &mut Guest) {
    become_locked(guest);
    read_lock_word(guest);
    for _ in 0..guest.random.below(3) {
        prepare(guest);
        let guess = wrong_guess(guest);
        send_guess(guest, ERASE, guess);
    }
    prepare(guest);
    let guess = guest.random.pick(&[Guess::RightUser, Guess::RightMaster]);
    send_guess(guest, ERASE, guess);
    look_after_erase(guest);
}

/// A refused F4h takes no attempt, and the right user password still opens afterwards.
pub fn wrong_erases_cost_nothing(guest: &mut Guest) {
    spend_some_attempts(guest);
    for _ in 0..4 {
        prepare(guest);
        let guess = wrong_guess(guest);
        send_guess(guest, ERASE, guess);
    }
    read_lock_word(guest);
    send_guess(guest, 0xF2, Guess::RightUser);
    read_lock_word(guest);
}

pub fn erase_without_preparing(guest: &mut Guest) {
    send_guess(guest, ERASE, Guess::RightUser);
    look_after_erase(guest);
}

/// A second erase needs a second preparation.
pub fn erase_twice_prepared_once(guest: &mut Guest) {
    prepare(guest);
    for _ in 0..2 {
        let guess = any_guess(guest);
        send_guess(guest, ERASE, guess);
    }
    look_after_erase(guest);
}

/// Other commands leave the preparation, resets end it.
pub fn prepare_then_other_things_then_erase(guest: &mut Guest) {
    prepare(guest);
    for _ in 0..guest.random.between(1, 4) {
        match guest.random.below(12) {
            0 => guest.pulse_software_reset(),
            1 => guest.hardware_or_power(),
            2 => guest.command(0x90),
            3 => guest.command(0x00),
            4 => read_whole_identify(guest),
            5 => read_sectors(guest),
            6 => send_guess(guest, 0xF2, Guess::RightUser),
            7 => send_guess(guest, 0xF6, Guess::OneByteWrong),
            8 => guest.command(0x91),
            9 => guest.command(0xE8),
            10 => guest.look_at_registers(),
            _ => guest.aside(),
        }
    }
    send_guess(guest, ERASE, Guess::RightUser);
    look_after_erase(guest);
}

/// A dropped erase ends the preparation, so the erase after it aborts.
pub fn cut_erase_then_try_again(guest: &mut Guest) {
    if guest.random.one_in(2) {
        become_locked(guest);
    }
    prepare(guest);
    guest.command(ERASE);
    let whole = guessed_block(guest, Guess::RightUser);
    let words = guest.random.pick(&[0, 1, 16, 17, 254, 255]);
    guest.carry_given(&whole[..words]);
    match guest.random.below(4) {
        0 => guest.command(ERASE),
        1 => guest.command(PREPARE),
        _ => cut_open_transfer_somewhere(guest),
    }
    guest.look_after_command();
    if guest.random.one_in(2) {
        read_whole_buffer(guest);
    }
    send_guess(guest, ERASE, Guess::RightUser);
    look_after_erase(guest);
}

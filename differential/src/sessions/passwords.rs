//! Scripts over setting passwords, locking, unlocking, disabling and freezing.

use super::addresses::{aim, good_address};
use super::buffers::{read_lock_word, read_whole_buffer};
use super::cuts::cut_open_transfer_somewhere;
use super::guesses::{
    any_guess, block, guessed_block, random_password, send_block, send_guess, wrong_guess, Guess,
};
use super::registers::sweep_of_command_codes;
use super::sectors::{read_sectors, write_then_read_back};
use crate::guest::Guest;

const SET: u8 = 0xF1;
const UNLOCK: u8 = 0xF2;
const DISABLE: u8 = 0xF6;

fn set_password(guest: &mut Guest, master: bool) {
    let (password, maximum) = (random_password(guest), guest.random.one_in(2));
    let block = block(guest, master, maximum, &password);
    send_block(guest, SET, &block);
    if guest.random.one_in(3) {
        read_whole_buffer(guest);
    }
}

pub fn set_user_password(guest: &mut Guest) {
    set_password(guest, false);
    if guest.random.one_in(3) {
        read_lock_word(guest);
    }
}

pub fn set_master_password(guest: &mut Guest) {
    set_password(guest, true);
}

/// Makes sure there is something to guess, then lets power or a hardware reset lock it.
pub fn become_locked(guest: &mut Guest) {
    if guest.memory.lock.locked {
        return;
    }
    if guest.memory.lock.frozen {
        guest.hardware_or_power();
    }
    if !guest.memory.lock.enabled {
        set_user_password(guest);
    }
    if guest.random.one_in(4) {
        write_then_read_back(guest);
    }
    guest.hardware_or_power();
}

pub fn lock_and_look(guest: &mut Guest) {
    become_locked(guest);
    read_lock_word(guest);
    if guest.random.one_in(2) {
        read_whole_buffer(guest);
    }
}

pub fn unlock_with_right_user(guest: &mut Guest) {
    become_locked(guest);
    read_lock_word(guest);
    send_guess(guest, UNLOCK, Guess::RightUser);
    read_lock_word(guest);
    match guest.random.below(3) {
        0 => read_whole_buffer(guest),
        1 => read_sectors(guest),
        _ => {}
    }
}

/// Opens at High; at Maximum it aborts uncounted.
pub fn unlock_with_right_master(guest: &mut Guest) {
    become_locked(guest);
    send_guess(guest, UNLOCK, Guess::RightMaster);
    read_lock_word(guest);
}

pub fn unlock_with_any_guess(guest: &mut Guest) {
    if guest.random.one_in(2) {
        become_locked(guest);
    }
    let guess = any_guess(guest);
    send_guess(guest, UNLOCK, guess);
    if guest.random.one_in(3) {
        read_whole_buffer(guest);
    }
    read_lock_word(guest);
}

/// A soft reset between guesses must not give attempts back.
pub fn spend_all_attempts(guest: &mut Guest) {
    become_locked(guest);
    for _ in 0..guest.random.between(4, 7) {
        let guess = wrong_guess(guest);
        send_guess(guest, UNLOCK, guess);
        match guest.random.below(6) {
            0 => guest.pulse_software_reset(),
            1 => guest.command(0x90),
            2 => read_lock_word(guest),
            _ => {}
        }
    }
    read_lock_word(guest);
    send_guess(guest, UNLOCK, Guess::RightUser);
    if guest.random.one_in(2) {
        guest.command(0xF3);
        send_guess(guest, 0xF4, Guess::RightUser);
    }
    read_lock_word(guest);
}

/// Attempts spent before opening stay spent afterwards.
pub fn some_wrong_then_right(guest: &mut Guest) {
    become_locked(guest);
    for _ in 0..guest.random.between(1, 4) {
        let guess = wrong_guess(guest);
        send_guess(guest, UNLOCK, guess);
    }
    send_guess(guest, UNLOCK, Guess::RightUser);
    read_lock_word(guest);
}

/// Leaves fewer attempts, so that a refusal which wrongly takes one shows in the lock word.
pub fn spend_some_attempts(guest: &mut Guest) {
    become_locked(guest);
    for _ in 0..guest.random.between(2, 4) {
        let guess = wrong_guess(guest);
        send_guess(guest, UNLOCK, guess);
    }
}

/// A refused F6h takes no attempt, however many were spent before the lock opened.
pub fn wrong_disables_cost_nothing(guest: &mut Guest) {
    spend_some_attempts(guest);
    send_guess(guest, UNLOCK, Guess::RightUser);
    for _ in 0..4 {
        let guess = wrong_guess(guest);
        send_guess(guest, DISABLE, guess);
    }
    read_lock_word(guest);
}

pub fn disable_with_any_guess(guest: &mut Guest) {
    let guess = any_guess(guest);
    send_guess(guest, DISABLE, guess);
    if guest.random.one_in(3) {
        read_whole_buffer(guest);
    }
    read_lock_word(guest);
}

pub fn disable_after_unlock(guest: &mut Guest) {
    become_locked(guest);
    send_guess(guest, UNLOCK, Guess::RightUser);
    for _ in 0..guest.random.below(3) {
        let guess = wrong_guess(guest);
        send_guess(guest, DISABLE, guess);
    }
    let guess = guest.random.pick(&[Guess::RightUser, Guess::RightMaster]);
    send_guess(guest, DISABLE, guess);
    guest.hardware_or_power();
    read_lock_word(guest);
}

/// Half a password must not stay in the buffer, and half a guess must not cost an attempt.
pub fn cut_password_block(guest: &mut Guest) {
    if guest.random.one_in(2) {
        become_locked(guest);
    }
    let code = guest.random.pick(&[SET, UNLOCK, UNLOCK, DISABLE]);
    guest.command(code);
    let whole = guessed_block(guest, Guess::RightUser);
    let words = guest.random.pick(&[0, 1, 2, 8, 16, 17, 18, 100, 254, 255]);
    guest.carry_given(&whole[..words]);
    cut_open_transfer_somewhere(guest);
    guest.carry_to_end();
    read_whole_buffer(guest);
    read_lock_word(guest);
}

/// Each command the lock may refuse, and some it lets pass.
fn every_refusable_command(guest: &mut Guest) {
    for code in [
        0x20, 0x21, 0x30, 0x31, 0x40, 0x41, 0xF1, 0xF2, 0xF4, 0xF6, 0x70, 0xE4,
    ] {
        if guest.random.one_in(3) {
            continue;
        }
        let address = good_address(guest);
        aim(guest, address, 1);
        guest.command(code);
        guest.poll();
        guest.read(1);
        guest.word_that_is_not_due();
    }
    guest.command(0x10);
    guest.look_at_registers();
}

/// Opens the lock where it can, by power first if the attempts are spent.
pub fn open_the_lock(guest: &mut Guest) {
    if guest.memory.lock.locked {
        if guest.memory.lock.attempts == 0 {
            guest.hardware_or_power();
        }
        send_guess(guest, UNLOCK, Guess::RightUser);
    }
}

pub fn sweep_while_open(guest: &mut Guest) {
    if guest.memory.lock.frozen {
        guest.hardware_or_power();
    }
    open_the_lock(guest);
    sweep_of_command_codes(guest);
}

pub fn sweep_while_locked(guest: &mut Guest) {
    become_locked(guest);
    sweep_of_command_codes(guest);
    read_lock_word(guest);
}

pub fn sweep_while_frozen(guest: &mut Guest) {
    open_the_lock(guest);
    guest.command(0xF5);
    sweep_of_command_codes(guest);
    read_lock_word(guest);
    guest.hardware_or_power();
}

pub fn every_command_while_locked(guest: &mut Guest) {
    become_locked(guest);
    every_refusable_command(guest);
    if guest.random.one_in(2) {
        guest.command(0xF5);
        guest.look_after_command();
    }
    read_lock_word(guest);
}

/// Frozen outlives a software reset and ends with the other two.
pub fn freeze_then_everything(guest: &mut Guest) {
    guest.command(0xF5);
    guest.look_after_command();
    read_lock_word(guest);
    every_refusable_command(guest);
    if guest.random.one_in(3) {
        guest.command(0xF3);
        send_guess(guest, 0xF4, Guess::RightUser);
    }
    if guest.random.one_in(2) {
        guest.pulse_software_reset();
        read_lock_word(guest);
    }
    if guest.random.one_in(3) {
        write_then_read_back(guest);
    }
    if !guest.random.one_in(4) {
        guest.hardware_or_power();
        read_lock_word(guest);
    }
}

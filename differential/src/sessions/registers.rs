//! Scripts over the registers, the interrupt line, device 1 and commands that don't exist.

use super::addresses::{aim, likely_address};
use crate::guest::Guest;
use crate::memory::DEV;
use crate::recording::Record;

pub fn write_registers_and_look(guest: &mut Guest) {
    for _ in 0..guest.random.between(1, 8) {
        let (register, value) = (guest.random.between(1, 6) as u8, guest.random.byte());
        guest.write(register, value);
    }
    guest.look_at_registers();
}

pub fn registers_out_of_range(guest: &mut Guest) {
    for _ in 0..guest.random.between(1, 6) {
        let (register, value) = (guest.register_out_of_range(), guest.random.byte());
        match guest.random.one_in(2) {
            true => guest.read(register),
            false => guest.write(register, value),
        }
    }
}

pub fn words_with_no_transfer(guest: &mut Guest) {
    for _ in 0..guest.random.between(1, 6) {
        guest.word_that_is_not_due();
    }
    guest.poll();
}

pub fn poll_for_a_while(guest: &mut Guest) {
    for _ in 0..guest.random.between(2, 12) {
        guest.aside();
        guest.poll();
    }
}

/// nIEN gates the line, not the raising; only a read of 7 clears it.
pub fn play_with_the_line(guest: &mut Guest) {
    for _ in 0..guest.random.between(2, 6) {
        let nien = guest.random.pick(&[0x00, 0x02]);
        guest.write(8, nien);
        guest.send(Record::AskLine);
        let code = guest
            .random
            .pick(&[0x10, 0x40, 0x70, 0x00, 0x90, 0x91, 0xF3]);
        if guest.random.one_in(2) {
            guest.command(code);
        }
        guest.send(Record::AskLine);
        let flipped = guest.random.pick(&[0x00, 0x02, 0xFB, 0xF9]);
        guest.write(8, flipped);
        guest.send(Record::AskLine);
        let status = guest.random.pick(&[7, 8]);
        guest.read(status);
        guest.send(Record::AskLine);
    }
}

pub fn unknown_command(guest: &mut Guest) {
    let address = likely_address(guest);
    aim(guest, address, 1);
    let code = match guest.random.below(5) {
        0 => 0x00,
        1 => guest.random.between(0xB0, 0xBF) as u8,
        2 => guest
            .random
            .pick(&[0x22, 0x23, 0x32, 0x33, 0x42, 0x50, 0x92, 0xC4, 0xC8, 0xCA]),
        3 => guest.random.byte(),
        _ => guest
            .random
            .pick(&[0xE0, 0xE5, 0xE6, 0xEF, 0xF0, 0xF7, 0xF8, 0xFF, 0x6F, 0x80]),
    };
    guest.command(code);
    guest.look_after_command();
    guest.word_that_is_not_due();
    guest.look_at_registers();
}

/// Every code from a random one on, up or down, so that all 256 are met over the sessions.
pub fn sweep_of_command_codes(guest: &mut Guest) {
    let first = guest.random.byte();
    let upwards = guest.random.one_in(2);
    for step in 0..guest.random.between(8, 48) as u8 {
        let code = match upwards {
            true => first.wrapping_add(step),
            false => first.wrapping_sub(step),
        };
        guest.command(code);
        guest.poll();
        guest.read(1);
        if guest.random.one_in(4) {
            guest.word_that_is_not_due();
        }
    }
    guest.look_at_registers();
}

pub fn select_device_one(guest: &mut Guest) {
    let others = guest.random.byte();
    guest.write(6, others | DEV);
    for _ in 0..guest.random.between(1, 8) {
        match guest.random.below(6) {
            0 => guest.look_at_registers(),
            1 => guest.word_that_is_not_due(),
            2 => guest.aside(),
            3 => {
                let (register, value) = (guest.random.between(1, 5) as u8, guest.random.byte());
                guest.write(register, value);
            }
            _ => {
                let code = guest.random.pick(&[
                    0x20, 0x30, 0x40, 0x10, 0x70, 0x91, 0xEC, 0xE4, 0xE8, 0xF1, 0xF3, 0xF5, 0x00,
                ]);
                guest.command(code);
                guest.poll();
            }
        }
    }
    leave_device_one(guest);
    guest.look_at_registers();
}

fn leave_device_one(guest: &mut Guest) {
    match guest.random.below(5) {
        0 => guest.command(0x90),
        1 => guest.pulse_software_reset(),
        2 => guest.hardware_or_power(),
        3 => {}
        _ => {
            let others = guest.random.byte();
            guest.write(6, others & !DEV);
        }
    }
}

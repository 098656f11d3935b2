//! Scripts over the three resets and the diagnostic.

use super::buffers::read_whole_buffer;
use crate::guest::Guest;
use crate::memory::{DEV, SRST};
use crate::recording::Record;

pub fn software_reset(guest: &mut Guest) {
    guest.pulse_software_reset();
    guest.look_at_registers();
    if guest.random.one_in(3) {
        read_whole_buffer(guest);
    }
}

/// While reset is held, writes to 1 to 7 do nothing and Status is 80h.
pub fn reset_held_with_writes(guest: &mut Guest) {
    let held = guest.random.byte() | SRST;
    guest.write(8, held);
    for _ in 0..guest.random.between(1, 10) {
        match guest.random.below(7) {
            0 => guest.look_at_registers(),
            1 => guest.word_that_is_not_due(),
            2 => guest.poll(),
            3 => {
                let again = guest.random.byte() | SRST;
                guest.write(8, again);
            }
            4 => guest.write(6, 0xA0 | DEV),
            5 => {
                let code = guest
                    .random
                    .pick(&[0x90, 0x10, 0x20, 0xEC, 0xF3, 0xF5, 0x91]);
                guest.command(code);
            }
            _ => {
                let (register, value) = (guest.random.between(1, 6) as u8, guest.random.byte());
                guest.write(register, value);
            }
        }
    }
    match guest.random.below(6) {
        0 => guest.hardware_or_power(),
        1 => {}
        _ => guest.device_control_without_reset(),
    }
    guest.look_at_registers();
}

pub fn hardware_reset(guest: &mut Guest) {
    guest.send(Record::HardwareReset);
    look_after_reset(guest);
}

pub fn power_on(guest: &mut Guest) {
    guest.send(Record::PowerOn);
    look_after_reset(guest);
}

fn look_after_reset(guest: &mut Guest) {
    guest.look_at_registers();
    if guest.random.one_in(3) {
        read_whole_buffer(guest);
    }
}

/// 90h gives start values but keeps translation, buffer, preparation and lock.
pub fn diagnostic(guest: &mut Guest) {
    let device_head = guest.random.byte();
    guest.write(6, device_head);
    guest.command(0x90);
    guest.look_after_command();
    guest.look_at_registers();
    if guest.random.one_in(3) {
        read_whole_buffer(guest);
    }
}

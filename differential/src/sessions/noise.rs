//! Records without a plan: uniform, and leaning to interesting values.

use crate::guest::Guest;
use crate::recording::Record;

const KNOWN_CODES: [u8; 22] = [
    0x20, 0x21, 0x30, 0x31, 0x40, 0x41, 0x10, 0x1F, 0x70, 0x7F, 0x90, 0x91, 0xEC, 0xE4, 0xE8, 0xF1,
    0xF2, 0xF3, 0xF4, 0xF5, 0xF6, 0x00,
];

fn uniform_record(guest: &mut Guest) -> Record {
    match guest.random.below(7) {
        0 => Record::ReadRegister(guest.random.byte()),
        1 => Record::WriteRegister(guest.random.byte(), guest.random.byte()),
        2 => Record::ReadWord,
        3 => Record::WriteWord(guest.random.word()),
        4 => Record::HardwareReset,
        5 => Record::PowerOn,
        _ => Record::AskLine,
    }
}

pub fn uniform_noise(guest: &mut Guest) {
    for _ in 0..guest.random.between(20, 200) {
        let record = uniform_record(guest);
        guest.send(record);
    }
}

fn leaning_value(guest: &mut Guest, register: u8) -> u8 {
    match (register, guest.random.below(4)) {
        (_, 0) => guest.random.byte(),
        (2, _) => guest.random.pick(&[0, 1, 2, 3, 8, 255]),
        (3, _) => guest.random.pick(&[0, 1, 7, 8, 9, 62, 63, 64]),
        (4, _) => guest.random.pick(&[0, 0, 0, 1, 3, 4]),
        (5, _) => guest.random.pick(&[0, 0, 0, 0, 0, 1]),
        (6, _) => guest
            .random
            .pick(&[0x00, 0xA0, 0xE0, 0x40, 0xA1, 0xE0, 0x01, 0xB0]),
        (7, _) => guest.random.pick(&KNOWN_CODES),
        (8, _) => guest.random.pick(&[0, 0, 0, 2, 2, 4, 6]),
        _ => guest.random.byte(),
    }
}

/// Words go mostly the way of the open transfer, so that blocks do get through.
fn leaning_words(guest: &mut Guest) {
    let words = guest.random.pick(&[1, 1, 2, 17, 128, 255, 256, 257]);
    let data = guest.data();
    guest.carry(words, data);
    if guest.random.one_in(4) {
        guest.word_that_is_not_due();
    }
}

pub fn leaning_noise(guest: &mut Guest) {
    for _ in 0..guest.random.between(20, 120) {
        match guest.random.below(40) {
            0 => guest.hardware_or_power(),
            1..=12 => {
                let register = guest.random.between(1, 8) as u8;
                guest.read(register);
            }
            13..=30 => {
                let register = guest.random.between(1, 8) as u8;
                let value = leaning_value(guest, register);
                guest.write(register, value);
            }
            31..=33 => guest.send(Record::AskLine),
            34 => {
                let record = uniform_record(guest);
                guest.send(record);
            }
            _ => leaning_words(guest),
        }
    }
}

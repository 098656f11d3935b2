//! Document 01, IDENTIFY words.

mod common;
use common::*;
use second::{Device, Identity};

fn host_with_identity() -> Host {
    let mut identity = Identity::SPACES;
    identity.serial.copy_from_slice(b"SERIAL-0123456789abc");
    identity.firmware.copy_from_slice(b"FIRM1.02");
    identity.model[..12].copy_from_slice(b"Model of 40.");
    Host {
        device: Device::setup(1_024, 16, 63, &identity, [0; 32]).unwrap(),
    }
}

#[test]
fn every_word_is_as_listed_and_the_others_are_0() {
    let words = host().identify();
    let mut expected = vec![0; 256];
    for (place, word) in [
        (0, 0x0040),
        (1, 4),
        (3, 2),
        (6, 8),
        (49, 0x0200),
        (53, 0x0001),
        (54, 4),
        (55, 2),
        (56, 8),
        (57, 64),
        (60, 64),
        (80, 0x000E),
        (82, 0x0002),
        (83, 0x4000),
        (128, 0x0001),
    ] {
        expected[place] = word;
    }
    expected[10..20].fill(0x2020);
    expected[23..27].fill(0x2020);
    expected[27..47].fill(0x2020);
    assert_eq!(words, expected);
}

#[test]
fn texts_have_their_first_character_in_the_high_byte() {
    let words = host_with_identity().identify();
    assert_eq!(words[10], u16::from_be_bytes(*b"SE"));
    assert_eq!(words[19], u16::from_be_bytes(*b"bc"));
    assert_eq!(words[23], u16::from_be_bytes(*b"FI"));
    assert_eq!(words[26], u16::from_be_bytes(*b"02"));
    assert_eq!(words[27], u16::from_be_bytes(*b"Mo"));
    assert_eq!(words[46], u16::from_be_bytes(*b"  "));
}

#[test]
fn long_numbers_are_low_word_first() {
    let mut host = host_with_identity();
    let words = host.identify();
    // 1,032,192 is 000F_C000h.
    assert_eq!(words[57..59], [0xC000, 0x000F]);
    assert_eq!(words[60..62], [0xC000, 0x000F]);
    assert_eq!((words[1], words[3], words[6]), (1_024, 16, 63));
}

#[test]
fn words_54_to_58_follow_the_translation_and_1_3_6_60_61_do_not() {
    let mut host = host();
    host.set_registers([7, 1, 0, 0, 2]);
    host.command(PARAMETERS);
    let words = host.identify();
    assert_eq!(words[54..59], [3, 3, 7, 63, 0]);
    assert_eq!((words[1], words[3], words[6]), (4, 2, 8));
    assert_eq!(words[60..62], [64, 0]);
}

#[test]
fn identify_keeps_registers_2_to_6_and_runs_locked_and_frozen() {
    let mut host = locked(0);
    host.set_registers([9, 9, 9, 9, 0x49]);
    assert_eq!(host.security(), 0x0007);
    assert_eq!(host.registers(), [9, 9, 9, 9, 0x49]);
    let mut host = common::host();
    host.command(FREEZE);
    assert_eq!(host.security(), 0x0009);
    host.ended_well();
}

#[test]
fn word_128_tells_each_part_of_the_lock() {
    let mut host = host();
    assert_eq!(host.security(), 0x0001);
    host.password(SET_PASSWORD, USER | MAXIMUM, 1);
    assert_eq!(host.security(), 0x0103);
    host.password(SET_PASSWORD, USER, 1);
    assert_eq!(host.security(), 0x0003);
    host.command(FREEZE);
    assert_eq!(host.security(), 0x000B);
    host.power_on();
    assert_eq!(host.security(), 0x0007);
    for _ in 0..5 {
        host.password(UNLOCK, USER, 2);
    }
    assert_eq!(host.security(), 0x0017);
}

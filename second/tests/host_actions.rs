//! Document 01, Host actions and when they are turned away.

mod common;
use common::*;
use second::Answer;

#[test]
fn register_0_or_above_8_is_answer_1_and_changes_nothing() {
    let mut host = host();
    host.lba(1, 5);
    host.command(READ);
    for register in [0, 9, 10, 16, 17, 128, 255] {
        for answer in [
            host.device.read_register(register),
            host.device.write_register(register, 0xEC),
        ] {
            assert_eq!((answer.number(), answer.value()), (1, 0));
        }
    }
    assert_eq!(host.registers(), [1, 5, 0, 0, LBA]);
    assert!(host.line());
    assert_eq!(host.status(), 0x58);
}

#[test]
fn data_word_with_no_transfer_is_answer_4_and_changes_nothing() {
    let mut host = host();
    for answer in [host.device.read_word(), host.device.write_word(7)] {
        assert_eq!((answer.number(), answer.value()), (4, 0));
    }
    assert_eq!(host.status(), 0x50);
    assert_eq!(host.error(), 0x01);
}

#[test]
fn data_word_against_the_direction_is_answer_4_and_changes_nothing() {
    let mut host = host();
    host.write_sector(0, 0xABCD);
    host.lba(1, 0);
    host.command(READ);
    assert_eq!(host.device.write_word(1), Answer::NoTransfer);
    assert_eq!(host.words(256), vec![0xABCD; 256]);
    host.command(WRITE);
    assert_eq!(host.device.read_word(), Answer::NoTransfer);
    assert_eq!(host.status(), 0x58);
}

#[test]
fn writes_and_resets_return_0() {
    let mut host = host();
    assert_eq!(host.device.write_register(2, 9), Answer::Done(0));
    assert_eq!(host.device.write_register(7, 0xE8), Answer::Done(0));
    assert_eq!(host.device.write_word(0xFFFF), Answer::Done(0));
    assert_eq!(host.device.hardware_reset(), Answer::Done(0));
    assert_eq!(host.device.power_on(), Answer::Done(0));
}

#[test]
fn answers_have_the_numbers_and_values_of_the_table() {
    let table = [
        (Answer::Done(0x1234), 0, 0x1234),
        (Answer::NoRegister, 1, 0),
        (Answer::NoTransfer, 4, 0),
        (Answer::Malformed, 5, 0),
        (Answer::OutsideLimits, 6, 0),
    ];
    for (answer, number, value) in table {
        assert_eq!((answer.number(), answer.value()), (number, value));
    }
}

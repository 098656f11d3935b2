//! Document 01, Registers.

mod common;
use common::*;

#[test]
fn start_values() {
    let mut host = host();
    assert_eq!(host.error(), 0x01);
    assert_eq!(host.registers(), [0x01, 0x01, 0x00, 0x00, 0x00]);
    assert_eq!(host.read(STATUS), 0x50);
    assert_eq!(host.read(ALTERNATE), 0x50);
}

#[test]
fn registers_2_to_6_read_what_the_host_wrote_and_features_is_not_readable() {
    let mut host = host();
    host.write(FEATURES, 0xAA);
    host.set_registers([0x11, 0x22, 0x33, 0x44, 0xEF]);
    assert_eq!(host.registers(), [0x11, 0x22, 0x33, 0x44, 0xEF]);
    assert_eq!(host.error(), 0x01);
}

#[test]
fn status_is_50h_idle_58h_with_a_word_due_51h_after_an_error_80h_in_reset() {
    let mut host = host();
    assert_eq!(host.status(), 0x50);
    host.command(IDENTIFY);
    assert_eq!(host.status(), 0x58);
    host.command(0x00);
    assert_eq!(host.status(), 0x51);
    host.write(CONTROL, SRST);
    assert_eq!(host.status(), 0x80);
    host.write(CONTROL, 0);
    assert_eq!(host.status(), 0x50);
}

#[test]
fn srst_drops_the_transfer_restores_start_values_and_factory_translation() {
    let mut host = host();
    host.write_sector(3, 0x5A5A);
    host.set_registers([4, 0, 0, 0, 3]);
    host.command(PARAMETERS);
    host.lba(2, 3);
    host.command(READ);
    host.words(3);
    host.write(CONTROL, SRST);
    host.no_transfer();
    assert!(!host.line());
    assert_eq!(host.error(), 0x01);
    assert_eq!(host.registers(), [1, 1, 0, 0, 0]);
    host.write(CONTROL, 0);
    assert_eq!(host.buffer(), vec![0; 256]);
    assert_eq!(host.identify()[54..57], [4, 2, 8]);
}

#[test]
fn srst_clears_preparation_but_touches_neither_lock_state_nor_attempts() {
    let mut host = locked(0);
    host.command(ERASE_PREPARE);
    for _ in 0..5 {
        host.password(UNLOCK, USER, 0x01);
    }
    host.software_reset();
    assert_eq!(host.security(), 0x0017);
    let mut host = common::host();
    host.command(ERASE_PREPARE);
    host.command(FREEZE);
    host.software_reset();
    assert_eq!(host.security(), 0x0009);
    let mut host = common::host();
    host.command(ERASE_PREPARE);
    host.software_reset();
    host.command(ERASE_UNIT);
    host.aborted();
}

#[test]
fn while_srst_is_held_writes_to_1_to_7_do_nothing() {
    let mut host = host();
    host.write(CONTROL, SRST);
    host.set_registers([9, 9, 9, 9, 0xFF]);
    for command in [READ, IDENTIFY, DIAGNOSTIC, FREEZE, ERASE_PREPARE] {
        host.command(command);
        host.no_transfer();
    }
    assert_eq!(host.status(), 0x80);
    assert_eq!(host.registers(), [1, 1, 0, 0, 0]);
    assert!(!host.line());
    host.write(CONTROL, 0);
    assert_eq!(host.status(), 0x50);
    assert_eq!(host.error(), 0x01);
    assert_eq!(host.security(), 0x0001);
}

#[test]
fn during_a_transfer_writes_to_1_to_6_do_nothing() {
    let mut host = host();
    host.lba(2, 7);
    host.command(READ);
    host.word();
    host.write(FEATURES, 0xFF);
    host.set_registers([9, 9, 9, 9, 0xFF]);
    assert_eq!(host.registers(), [2, 7, 0, 0, LBA]);
    assert_eq!(host.error(), 0x00);
    host.words(511);
    assert_eq!(host.registers(), [0, 8, 0, 0, LBA]);
}

#[test]
fn registers_2_to_6_keep_what_the_host_wrote_until_the_command_ends() {
    let mut host = host();
    host.lba(3, 7);
    host.command(WRITE);
    for left in (1..768).rev() {
        host.put(left);
        assert_eq!(host.registers(), [3, 7, 0, 0, LBA]);
    }
    host.put(0);
    assert_eq!(host.registers(), [0, 9, 0, 0, LBA]);
}

#[test]
fn a_command_write_drops_the_transfer_and_a_partial_sector_is_not_stored() {
    let mut host = host();
    host.write_sector(2, 0x1111);
    host.lba(1, 2);
    host.command(WRITE);
    host.put_all(&[0x2222; 255]);
    host.command(SEEK);
    host.ended_well();
    host.no_transfer();
    assert_eq!(host.sector(2), vec![0x1111; 256]);
}

#[test]
fn with_dev_set_7_and_8_read_00h_and_that_read_changes_nothing() {
    let mut host = host();
    host.command(SEEK);
    assert!(host.line());
    host.write(DEVICE_HEAD, DEV);
    assert_eq!(host.read(STATUS), 0x00);
    assert_eq!(host.read(ALTERNATE), 0x00);
    assert!(host.line());
    host.write(DEVICE_HEAD, 0);
    assert!(host.line());
    assert_eq!(host.read(STATUS), 0x50);
    assert!(!host.line());
}

#[test]
fn with_dev_set_commands_other_than_90h_do_nothing() {
    let mut host = host();
    host.command(0x00);
    host.read(STATUS);
    host.write(DEVICE_HEAD, DEV);
    for code in (0..=255).filter(|code| *code != DIAGNOSTIC) {
        host.command(code);
        host.no_transfer();
        assert!(!host.line());
        assert_eq!(host.error(), 0x04);
        assert_eq!(host.registers(), [1, 1, 0, 0, DEV]);
    }
    host.write(DEVICE_HEAD, 0);
    assert_eq!(host.status(), 0x51);
    assert_eq!(host.security(), 0x0001);
}

#[test]
fn a_command_clears_error_and_the_interrupt() {
    let mut host = host();
    host.command(0x00);
    assert_eq!(host.error(), 0x04);
    assert!(host.line());
    host.command(WRITE_BUFFER);
    assert_eq!(host.error(), 0x00);
    assert!(!host.line());
}

#[test]
fn interrupt_is_raised_when_each_block_to_be_read_is_ready() {
    let mut host = host();
    host.lba(2, 0);
    host.command(READ);
    assert!(host.raised());
    host.words(255);
    assert!(!host.line());
    host.word();
    assert!(host.raised());
    host.words(256);
    assert!(
        !host.line(),
        "the last word of a read that ends well raises nothing"
    );
}

#[test]
fn interrupt_is_raised_when_each_block_to_be_written_after_the_first_is_wanted() {
    let mut host = host();
    host.lba(2, 0);
    host.command(WRITE);
    assert!(!host.line());
    host.put_all(&[0; 255]);
    assert!(!host.line());
    host.put(0);
    assert!(host.raised());
    host.put_all(&[0; 255]);
    assert!(!host.line());
    host.put(0);
    assert!(host.raised(), "the command ends");
}

#[test]
fn interrupt_is_raised_when_a_command_ends_well_or_not() {
    let mut host = host();
    for code in [
        SEEK,
        0x10,
        VERIFY,
        ERASE_UNIT,
        ERASE_PREPARE,
        DIAGNOSTIC,
        0x00,
        0xFF,
    ] {
        host.lba(1, 0);
        host.command(code);
        assert!(host.raised(), "{code:02X}");
    }
    host.lba(1, 64);
    host.command(READ);
    assert!(host.raised());
}

#[test]
fn a_read_that_ends_badly_raises() {
    let mut host = host();
    host.lba(2, 63);
    host.command(READ);
    assert!(host.raised());
    host.words(256);
    assert!(host.raised());
}

#[test]
fn a_reset_raises_nothing() {
    let mut host = host();
    host.command(SEEK);
    host.software_reset();
    assert!(!host.line());
    host.command(SEEK);
    host.hardware_reset();
    assert!(!host.line());
    host.command(SEEK);
    host.power_on();
    assert!(!host.line());
}

#[test]
fn reading_7_clears_the_interrupt_8_does_not() {
    let mut host = host();
    host.command(SEEK);
    host.read(ALTERNATE);
    assert!(host.line());
    host.read(STATUS);
    assert!(!host.line());
}

#[test]
fn line_is_1_when_raised_and_nien_is_0() {
    let mut host = host();
    host.write(CONTROL, NIEN);
    host.command(SEEK);
    assert!(!host.line());
    host.write(CONTROL, 0);
    assert!(host.line());
    host.write(CONTROL, NIEN);
    assert!(!host.line());
}

#[test]
fn abort_is_error_04h_status_51h_registers_2_to_6_kept() {
    let mut host = host();
    host.set_registers([0x12, 0x34, 0x56, 0x78, 0xAF]);
    host.command(0xC8);
    host.aborted();
    assert_eq!(host.registers(), [0x12, 0x34, 0x56, 0x78, 0xAF]);
}

//! Document 01, The lock.

mod common;
use common::*;

/// The codes that abort at once in a device made by `make`, prepared for F4h.
fn refused(make: impl Fn() -> Host) -> Vec<u8> {
    let runs = |code: &u8| {
        let mut host = make();
        host.command(ERASE_PREPARE);
        host.command(*code);
        host.status() == 0x51
    };
    let named = [
        READ, 0x21, WRITE, 0x31, VERIFY, 0x41, SEEK, 0x10, DIAGNOSTIC, PARAMETERS,
    ];
    let rest = [
        READ_BUFFER,
        WRITE_BUFFER,
        IDENTIFY,
        0xF1,
        0xF2,
        0xF3,
        0xF4,
        0xF5,
        0xF6,
    ];
    named.into_iter().chain(rest).filter(runs).collect()
}

#[test]
fn locked_aborts_at_once_reads_writes_verifies_f1h_f5h_f6h() {
    let expected = [0x20, 0x21, 0x30, 0x31, 0x40, 0x41, 0xF1, 0xF5, 0xF6];
    assert_eq!(refused(|| locked(0)), expected);
    assert_eq!(refused(|| locked(MAXIMUM)), expected);
}

#[test]
fn frozen_aborts_at_once_f1h_f2h_f4h_f6h() {
    let frozen = || {
        let mut host = host();
        host.command(FREEZE);
        host
    };
    assert_eq!(refused(frozen), [0xF1, 0xF2, 0xF4, 0xF6]);
}

#[test]
fn open_aborts_nothing_named_once_prepared() {
    assert_eq!(refused(host), []);
}

#[test]
fn f4h_aborts_without_preparation() {
    let mut host = host();
    host.command(ERASE_UNIT);
    host.aborted();
    assert!(host.raised());
    host.no_transfer();
}

#[test]
fn f2h_and_f4h_abort_with_no_attempts_left() {
    let mut host = locked(0);
    for _ in 0..5 {
        host.password(UNLOCK, USER, 0);
        host.aborted();
    }
    host.command(UNLOCK);
    host.aborted();
    host.command(ERASE_PREPARE);
    host.ended_well();
    host.command(ERASE_UNIT);
    host.aborted();
    host.no_transfer();
}

#[test]
fn f1h_user_stores_password_and_level_and_locks_only_at_the_next_power_on() {
    let mut host = host();
    host.write_sector(0, 1);
    host.password(SET_PASSWORD, USER | MAXIMUM, 7);
    host.ended_well();
    assert!(host.raised());
    assert_eq!(host.security(), 0x0103);
    assert_eq!(host.sector(0), vec![1; 256], "not locked yet");
    host.software_reset();
    assert_eq!(host.security(), 0x0103, "nor by a software reset");
    host.power_on();
    assert_eq!(host.security(), 0x0107);
    host.password(UNLOCK, USER, 7);
    host.ended_well();
    assert_eq!(host.security(), 0x0103);
}

#[test]
fn f1h_master_stores_the_password_only() {
    let mut host = host();
    host.password(SET_PASSWORD, MASTER | MAXIMUM, 9);
    host.ended_well();
    assert_eq!(host.security(), 0x0001);
    host.password(SET_PASSWORD, USER, 7);
    host.power_on();
    host.password(UNLOCK, MASTER, 9);
    host.ended_well();
    assert_eq!(host.security(), 0x0003);
}

#[test]
fn f2h_when_not_locked_ends_well_and_compares_nothing() {
    let mut host = host();
    host.password(UNLOCK, USER, 0xEE);
    host.ended_well();
    host.password(SET_PASSWORD, USER | MAXIMUM, 7);
    for _ in 0..6 {
        host.password(UNLOCK, MASTER, 0xEE);
        host.ended_well();
    }
    assert_eq!(host.security(), 0x0103);
}

#[test]
fn f2h_master_opens_at_high_and_aborts_uncounted_at_maximum() {
    let mut host = locked(0);
    host.password(UNLOCK, MASTER, 0);
    host.ended_well();
    let mut host = locked(MAXIMUM);
    for _ in 0..6 {
        host.password(UNLOCK, MASTER, 0);
        host.aborted();
    }
    assert_eq!(host.security(), 0x0107);
    host.password(UNLOCK, USER, 0x55);
    host.ended_well();
}

#[test]
fn f2h_mismatch_aborts_and_takes_one_attempt() {
    let mut host = locked(0);
    for guess in 1..=5 {
        assert_eq!(host.security(), 0x0007);
        host.password(UNLOCK, USER, guess);
        host.aborted();
        assert!(host.raised());
    }
    assert_eq!(host.security(), 0x0017);
}

#[test]
fn opening_does_not_restore_attempts() {
    let mut host = locked(0);
    for _ in 0..4 {
        host.password(UNLOCK, USER, 0);
    }
    host.password(UNLOCK, USER, 0x55);
    host.ended_well();
    host.password(UNLOCK, USER, 0);
    host.ended_well();
    assert_eq!(
        host.security(),
        0x0003,
        "one attempt is left, and open compares nothing"
    );
}

#[test]
fn preparation_lasts_over_other_commands_until_f4h_ends() {
    let mut host = host();
    host.command(ERASE_PREPARE);
    host.command(SEEK);
    host.command(0x00);
    host.sector(0);
    host.buffer();
    host.password(ERASE_UNIT, USER, 0);
    host.ended_well();
    host.command(ERASE_UNIT);
    host.aborted();
}

#[test]
fn f4h_erases_all_sectors_and_switches_security_off() {
    for (word_0, fill) in [(USER, 0x55), (MASTER, 0x00)] {
        for level in [0, MAXIMUM] {
            let mut host = host();
            (0..64).for_each(|sector| host.write_sector(sector, 0xFFFF));
            host.password(SET_PASSWORD, USER | level, 0x55);
            host.power_on();
            host.command(ERASE_PREPARE);
            host.password(ERASE_UNIT, word_0, fill);
            host.ended_well();
            assert!(host.raised());
            assert_eq!(host.security(), 0x0001);
            assert_eq!(host.device.memory(), [0; 64 * 512]);
            host.power_on();
            assert_eq!(host.security(), 0x0001);
        }
    }
}

#[test]
fn f4h_mismatch_aborts_takes_no_attempt_and_keeps_the_sectors() {
    let mut host = host();
    host.write_sector(5, 0x1357);
    host.password(SET_PASSWORD, USER, 0x55);
    host.power_on();
    for _ in 0..6 {
        host.command(ERASE_PREPARE);
        host.password(ERASE_UNIT, USER, 0x54);
        host.aborted();
        assert_eq!(host.security(), 0x0007);
    }
    host.password(UNLOCK, USER, 0x55);
    assert_eq!(host.sector(5), vec![0x1357; 256]);
}

#[test]
fn f6h_switches_security_off_and_keeps_the_sectors() {
    let mut host = host();
    host.write_sector(5, 0x1357);
    host.password(SET_PASSWORD, USER | MAXIMUM, 0x55);
    for _ in 0..6 {
        host.password(DISABLE_PASSWORD, USER, 0x54);
        host.aborted();
        assert_eq!(host.security(), 0x0103);
    }
    host.password(DISABLE_PASSWORD, USER, 0x55);
    host.ended_well();
    assert_eq!(host.security(), 0x0001);
    assert_eq!(host.sector(5), vec![0x1357; 256]);
    host.power_on();
    assert_eq!(host.security(), 0x0001);
}

#[test]
fn f5h_freezes_until_power_on_or_hardware_reset() {
    let mut host = host();
    host.command(FREEZE);
    host.ended_well();
    assert_eq!(host.security(), 0x0009);
    host.software_reset();
    assert_eq!(host.security(), 0x0009);
    host.command(SET_PASSWORD);
    host.aborted();
    host.hardware_reset();
    assert_eq!(host.security(), 0x0001);
}

#[test]
fn the_buffer_is_zeroed_however_a_password_transfer_ends() {
    let zero = vec![0; 256];
    let mut host = locked(0);
    host.password(UNLOCK, USER, 0x54);
    assert_eq!(host.buffer(), zero, "mismatch");
    host.password(UNLOCK, USER, 0x55);
    assert_eq!(host.buffer(), zero, "match");
    host.command(ERASE_PREPARE);
    host.password(ERASE_UNIT, USER, 0x54);
    assert_eq!(host.buffer(), zero, "F4h refused");
    host.password(DISABLE_PASSWORD, USER, 0x55);
    assert_eq!(host.buffer(), zero, "F6h");
    host.password(SET_PASSWORD, MASTER, 0x33);
    assert_eq!(host.buffer(), zero, "F1h");
    for code in [SET_PASSWORD, UNLOCK, DISABLE_PASSWORD] {
        host.command(code);
        host.put_all(&[0x9999; 200]);
        assert_eq!(host.buffer(), zero, "dropped");
    }
    host.command(SET_PASSWORD);
    host.put_all(&[0x9999; 200]);
    host.software_reset();
    assert_eq!(host.buffer(), zero, "reset");
}

#[test]
fn a_password_block_passes_no_interrupt_until_it_ends() {
    let mut host = host();
    host.command(SET_PASSWORD);
    assert!(!host.line());
    host.put_all(&[0; 255]);
    assert!(!host.line());
    host.put(0);
    assert!(host.raised());
}

#[test]
fn password_commands_keep_registers_2_to_6() {
    let mut host = host();
    host.set_registers([0x12, 0x34, 0x56, 0x78, 0xAF]);
    host.password(SET_PASSWORD, USER, 1);
    host.password(UNLOCK, USER, 1);
    host.password(DISABLE_PASSWORD, USER, 1);
    host.command(ERASE_PREPARE);
    host.password(ERASE_UNIT, USER, 1);
    host.command(FREEZE);
    assert_eq!(host.registers(), [0x12, 0x34, 0x56, 0x78, 0xAF]);
}

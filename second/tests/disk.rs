//! Document 01, The disk and its three lives.

mod common;
use common::*;
use second::{Answer, Device, Geometry, Identity};

fn setup(c: u32, h: u32, s: u32, identity: &Identity) -> Option<Answer> {
    Device::setup(c, h, s, identity, [0; 32]).err()
}

#[test]
fn geometry_is_within_its_ceilings() {
    for (c, h, s) in [(1, 1, 1), (1_024, 1, 1), (1, 16, 1), (1, 1, 63), (4, 2, 8)] {
        assert_eq!(setup(c, h, s, &Identity::SPACES), None);
    }
}

#[test]
fn setup_outside_the_geometry_limits_is_answer_6() {
    for (c, h, s) in [
        (0, 1, 1),
        (1, 0, 1),
        (1, 1, 0),
        (1_025, 1, 1),
        (1, 17, 1),
        (1, 1, 64),
    ] {
        let answer = setup(c, h, s, &Identity::SPACES).unwrap();
        assert_eq!((answer.number(), answer.value()), (6, 0));
    }
}

#[test]
fn setup_with_an_identity_byte_outside_20h_to_7eh_is_answer_6() {
    for (byte, good) in [
        (0x1F, false),
        (0x20, true),
        (0x7E, true),
        (0x7F, false),
        (0xFF, false),
    ] {
        let mut identities = [Identity::SPACES, Identity::SPACES, Identity::SPACES];
        identities[0].serial[19] = byte;
        identities[1].firmware[0] = byte;
        identities[2].model[39] = byte;
        for identity in identities {
            assert_eq!(setup(1, 1, 1, &identity).is_none(), good);
        }
    }
}

#[test]
fn capacity_is_c_x_h_x_s_and_at_most_1_032_192() {
    assert_eq!(Geometry::new(1_024, 16, 63).unwrap().capacity(), 1_032_192);
    assert_eq!(Geometry::new(4, 2, 8).unwrap().capacity(), 64);
}

#[test]
fn sector_memory_is_512_x_capacity_bytes_of_zero() {
    let host = host();
    let bytes = host.device.memory();
    assert_eq!(bytes, &[0; 512 * 64]);
}

#[test]
fn fresh_device_has_security_off_level_high_and_is_open() {
    assert_eq!(host().security(), 0x0001);
}

/// A device with every part of its state disturbed, security enabled and not locked.
fn disturbed() -> Host {
    let mut host = host();
    host.write_sector(9, 0x1234);
    host.password(SET_PASSWORD, USER | MAXIMUM, 0x55);
    host.set_registers([4, 0, 0, 0, 0]);
    host.command(PARAMETERS);
    host.command(ERASE_PREPARE);
    host.command(FREEZE);
    host.write(CONTROL, NIEN);
    host.write(FEATURES, 0x77);
    host.lba(3, 9);
    host.command(READ);
    host.words(5);
    host
}

fn check_after_reset(mut host: Host) {
    assert_eq!(host.error(), 0x01);
    assert_eq!(host.registers(), [1, 1, 0, 0, 0]);
    assert!(!host.line());
    assert_eq!(host.status(), 0x50);
    host.no_transfer();
    assert_eq!(host.buffer(), vec![0; 256]);
    assert!(host.line(), "nIEN is 0");
    let words = host.identify();
    assert_eq!(words[54..59], [4, 2, 8, 64, 0], "factory translation");
    assert_eq!(
        words[128], 0x0107,
        "frozen ended, locked, five attempts, level kept"
    );
    host.command(ERASE_UNIT);
    host.aborted();
    host.password(UNLOCK, USER, 0x55);
    host.ended_well();
    assert_eq!(host.sector(9), vec![0x1234; 256], "sectors stay");
}

#[test]
fn power_on_restores_all_but_passwords_level_and_sectors() {
    let mut host = disturbed();
    host.power_on();
    check_after_reset(host);
}

#[test]
fn hardware_reset_restores_all_but_passwords_level_and_sectors() {
    let mut host = disturbed();
    host.hardware_reset();
    check_after_reset(host);
}

#[test]
fn power_on_clears_device_control() {
    let mut host = host();
    host.write(CONTROL, SRST | NIEN);
    host.power_on();
    assert_eq!(host.status(), 0x50);
    host.command(SEEK);
    assert!(host.line(), "nIEN is 0");
}

#[test]
fn power_on_gives_five_attempts() {
    let mut host = locked(0);
    for _ in 0..5 {
        host.password(UNLOCK, USER, 0x11);
        host.aborted();
    }
    assert_eq!(host.security(), 0x0017);
    host.power_on();
    assert_eq!(host.security(), 0x0007);
    for _ in 0..4 {
        host.password(UNLOCK, USER, 0x11);
    }
    host.password(UNLOCK, USER, 0x55);
    host.ended_well();
}

#[test]
fn power_on_locks_exactly_if_security_is_enabled() {
    let mut host = host();
    host.power_on();
    assert_eq!(host.security(), 0x0001);
    host.password(SET_PASSWORD, USER, 0x55);
    assert_eq!(host.security(), 0x0003);
    host.hardware_reset();
    assert_eq!(host.security(), 0x0007);
}

//! Document 01, Numbers to settle by proof and by run.

mod common;
use common::*;
use second::Geometry;

#[test]
fn number_1_capacity_64_for_4_x_2_x_8() {
    assert_eq!(Geometry::new(4, 2, 8).unwrap().capacity(), 64);
}

/// Writes by CHS and finds the sector's number by what changed.
fn number_of(c: u16, h: u8, s: u8) -> Option<usize> {
    let mut host = host();
    host.chs(1, c, h, s);
    host.command(WRITE);
    if host.status() == 0x51 {
        host.bad_address();
        return None;
    }
    host.put_all(&[0xFFFF; 256]);
    let mut sectors = host.device.memory().chunks(512);
    sectors.position(|sector| sector == [0xFF; 512])
}

#[test]
fn numbers_2_to_5_chs_0_0_1_is_0_3_1_8_is_63_4_0_1_and_sector_0_fault() {
    assert_eq!(number_of(0, 0, 1), Some(0));
    assert_eq!(number_of(3, 1, 8), Some(63));
    assert_eq!(number_of(4, 0, 1), None);
    assert_eq!(number_of(0, 0, 0), None);
}

#[test]
fn number_6_lba_64_faults() {
    let mut host = host();
    host.lba(1, 64);
    host.command(READ);
    host.bad_address();
}

#[test]
fn numbers_7_to_10_word_128() {
    assert_eq!(host().security(), 0x0001);
    assert_eq!(locked(0).security(), 0x0007);
    let mut host = locked(MAXIMUM);
    (0..5).for_each(|_| host.password(UNLOCK, USER, 0));
    assert_eq!(host.security(), 0x0117);
    let mut host = common::host();
    host.password(SET_PASSWORD, USER, 1);
    host.command(FREEZE);
    assert_eq!(host.security(), 0x000B);
}

#[test]
fn number_11_91h_with_s_8_nibble_0_gives_8_cylinders() {
    let mut host = host();
    host.set_registers([8, 1, 0, 0, 0]);
    host.command(PARAMETERS);
    assert_eq!(host.identify()[54], 8);
}

#[test]
fn number_12_lba_63_with_count_2_ends_after_256_words_with_error_10h_count_1() {
    let mut host = host();
    host.lba(2, 63);
    host.command(READ);
    host.words(256);
    host.bad_address();
    host.no_transfer();
    assert_eq!(host.read(COUNT), 1);
}

#[test]
fn a_transfer_ends_within_65_536_data_words() {
    let mut host = host_with(4, 16, 4);
    host.lba(0, 0);
    host.command(WRITE);
    for _ in 0..65_536 {
        assert_eq!(host.status(), 0x58);
        host.put(0);
    }
    host.ended_well();
    host.no_transfer();
}

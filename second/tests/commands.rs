//! Document 01, Commands.

mod common;
use common::*;

#[test]
fn every_code_not_named_aborts_00h_included() {
    let named = |code: u8| {
        matches!(code, 0x10..=0x1F | 0x20 | 0x21 | 0x30 | 0x31 | 0x40 | 0x41 | 0x70..=0x7F)
            || matches!(code, 0x90 | 0x91 | 0xE4 | 0xE8 | 0xEC | 0xF1..=0xF6)
    };
    for code in 0..=255 {
        let mut host = host();
        host.command(code);
        let aborts = host.status() == 0x51;
        // F4h is named, and aborts for want of preparation.
        assert_eq!(aborts, !named(code) || code == ERASE_UNIT, "{code:02X}");
        if aborts {
            host.aborted();
            assert_eq!(host.registers(), [1, 1, 0, 0, 0]);
        }
    }
}

#[test]
fn write_stores_and_read_gives_back_each_sector_in_lba_and_chs() {
    for (write, read) in [(0x30, 0x20), (0x31, 0x21)] {
        let mut host = host();
        for sector in 0..64u16 {
            host.lba(1, sector.into());
            host.command(write);
            host.put_all(&[sector * 3; 256]);
            host.ended_well();
        }
        for sector in 0..64u16 {
            host.chs(
                1,
                sector / 16,
                (sector / 8 % 2) as u8,
                (sector % 8) as u8 + 1,
            );
            host.command(read);
            assert_eq!(host.words(256), vec![sector * 3; 256]);
            host.ended_well();
        }
    }
}

#[test]
fn a_word_is_low_byte_first() {
    let mut host = host();
    host.lba(1, 0);
    host.command(WRITE);
    host.put_all(&[0x1234; 256]);
    assert_eq!(host.device.memory()[..4], [0x34, 0x12, 0x34, 0x12]);
}

#[test]
fn sector_count_0_is_256() {
    let mut host = host_with(5, 16, 4);
    host.lba(0, 10);
    host.command(READ);
    host.words(256 * 256 - 1);
    assert_eq!(host.status(), 0x58);
    host.word();
    host.ended_well();
    assert_eq!(host.registers(), [0, (10 + 255 - 256) as u8, 1, 0, LBA]);
    host.lba(0, 0);
    host.command(VERIFY);
    host.ended_well();
    assert_eq!(host.registers(), [0, 255, 0, 0, LBA]);
}

#[test]
fn a_bad_first_address_ends_before_any_word_and_256_shows_as_00h() {
    for code in [0x20, 0x21, 0x30, 0x31, 0x40, 0x41] {
        let mut host = host();
        host.lba(0, 64);
        host.command(code);
        host.bad_address();
        host.no_transfer();
        assert_eq!(host.registers(), [0, 64, 0, 0, LBA]);
        assert!(host.raised());
    }
}

#[test]
fn a_sector_is_stored_only_when_its_256th_word_arrives() {
    let mut host = host();
    host.lba(2, 4);
    host.command(WRITE);
    host.put_all(&[0x7777; 255]);
    assert_eq!(host.stored(4), [0; 512]);
    host.put(0x7777);
    assert_eq!(host.stored(4), [0x77; 512]);
    assert_eq!(host.stored(5), [0; 512]);
}

#[test]
fn a_bad_address_later_shows_it_with_the_sectors_left_including_it() {
    for code in [READ, WRITE, VERIFY] {
        let mut host = host();
        host.lba(5, 62);
        host.command(code);
        if code == READ {
            host.words(512);
        } else if code == WRITE {
            host.put_all(&[0xEEEE; 512]);
            assert_eq!(host.stored(63), [0xEE; 512]);
        }
        host.bad_address();
        host.no_transfer();
        assert_eq!(host.registers(), [3, 64, 0, 0, LBA]);
    }
}

#[test]
fn the_successor_steps_s_then_h_then_c() {
    let mut host = host();
    for (from, to) in [
        ((0, 0, 7), (0, 0, 8)),
        ((0, 0, 8), (0, 1, 1)),
        ((1, 1, 8), (2, 0, 1)),
    ] {
        host.chs(2, from.0, from.1, from.2);
        host.command(VERIFY);
        host.ended_well();
        assert_eq!(host.registers(), [0, to.2, to.0, 0, to.1]);
    }
}

#[test]
fn verify_ends_with_count_0_and_the_last_address() {
    for code in [0x40, 0x41] {
        let mut host = host();
        host.chs(64, 0, 0, 1);
        host.write(DEVICE_HEAD, 0xA0);
        host.command(code);
        host.ended_well();
        assert_eq!(host.registers(), [0, 8, 3, 0, 0xA1]);
    }
}

#[test]
fn chs_faults_outside_s_h_and_c() {
    let mut host = host();
    let bad = [
        (0, 0, 0),
        (0, 0, 9),
        (0, 2, 1),
        (4, 0, 1),
        (256, 0, 1),
        (65_535, 15, 255),
    ];
    for (c, h, s) in bad {
        host.chs(1, c, h, s);
        host.command(SEEK);
        host.bad_address();
    }
    for (c, h, s) in [(0, 0, 1), (3, 1, 8), (0, 1, 8), (3, 0, 1)] {
        host.chs(1, c, h, s);
        host.command(SEEK);
        host.ended_well();
    }
}

#[test]
fn lba_is_28_bits_below_capacity() {
    let mut host = host();
    for (sector, good) in [
        (0, true),
        (63, true),
        (64, false),
        (256, false),
        (65_536, false),
    ] {
        host.lba(1, sector);
        host.command(SEEK);
        assert_eq!(host.status() == 0x50, good);
    }
    host.lba(1, 1 << 24);
    host.command(SEEK);
    host.bad_address();
}

#[test]
fn seek_keeps_registers_2_to_6_either_way() {
    for code in 0x70..=0x7F {
        let mut host = host();
        host.set_registers([0x12, 8, 3, 0, 0xA1]);
        host.command(code);
        host.ended_well();
        assert_eq!(host.registers(), [0x12, 8, 3, 0, 0xA1]);
        host.set_registers([0x12, 9, 3, 0, 0xA1]);
        host.command(code);
        host.bad_address();
        assert_eq!(host.registers(), [0x12, 9, 3, 0, 0xA1]);
    }
}

#[test]
fn recalibrate_zeroes_cylinders_and_head_with_sector_1_in_chs_0_in_lba() {
    for code in 0x10..=0x1F {
        let mut host = host();
        host.set_registers([0x12, 0x34, 0x56, 0x78, 0xAF]);
        host.command(code);
        host.ended_well();
        assert_eq!(host.registers(), [0x12, 1, 0, 0, 0xA0]);
        host.set_registers([0x12, 0x34, 0x56, 0x78, 0xEF]);
        host.command(code);
        host.ended_well();
        assert_eq!(host.registers(), [0x12, 0, 0, 0, 0xE0]);
    }
}

#[test]
fn parameters_set_the_translation_and_keep_the_registers() {
    let mut host = host();
    host.set_registers([5, 9, 9, 9, 0xA2]);
    host.command(PARAMETERS);
    host.ended_well();
    assert_eq!(host.registers(), [5, 9, 9, 9, 0xA2]);
    // 64 / (3 x 5) is 4, and 60 sectors are addressed.
    assert_eq!(host.identify()[54..59], [4, 3, 5, 60, 0]);
    host.write_sector(59, 0xBEEF);
    host.chs(1, 3, 2, 5);
    host.command(READ);
    assert_eq!(host.words(256), vec![0xBEEF; 256]);
    host.chs(1, 4, 0, 1);
    host.command(READ);
    host.bad_address();
}

#[test]
fn parameters_abort_if_s_or_cylinders_is_0() {
    let mut host = host();
    for (count, nibble) in [(0, 0), (65, 0), (33, 1), (255, 15)] {
        host.set_registers([count, 1, 0, 0, nibble]);
        host.command(PARAMETERS);
        host.aborted();
    }
    host.set_registers([64, 1, 0, 0, 0]);
    host.command(PARAMETERS);
    host.ended_well();
    assert_eq!(host.identify()[54..57], [1, 1, 64]);
}

#[test]
fn diagnostic_sets_start_values_and_keeps_translation_buffer_preparation_and_lock() {
    let mut host = host();
    host.set_registers([8, 9, 9, 9, 0]);
    host.command(PARAMETERS);
    host.command(ERASE_PREPARE);
    host.command(WRITE_BUFFER);
    host.put_all(&[0x4321; 256]);
    host.write(FEATURES, 9);
    host.set_registers([9, 9, 9, 9, 0xEF]);
    host.command(DIAGNOSTIC);
    assert_eq!((host.status(), host.error()), (0x50, 0x01));
    assert_eq!(host.registers(), [1, 1, 0, 0, 0]);
    assert!(host.raised());
    assert_eq!(host.buffer(), vec![0x4321; 256]);
    assert_eq!(host.identify()[54..57], [8, 1, 8]);
    host.password(ERASE_UNIT, USER, 0);
    host.ended_well();
}

#[test]
fn buffer_commands_read_and_write_512_bytes_and_keep_the_registers() {
    let mut host = host();
    host.set_registers([0x12, 0x34, 0x56, 0x78, 0xAF]);
    host.command(WRITE_BUFFER);
    let words: Vec<u16> = (0..256).map(|n| n * 251).collect();
    host.put_all(&words);
    host.ended_well();
    assert_eq!(host.buffer(), words);
    host.ended_well();
    assert_eq!(host.registers(), [0x12, 0x34, 0x56, 0x78, 0xAF]);
    host.no_transfer();
}

#[test]
fn every_block_passes_through_the_buffer_and_stays_there() {
    let mut host = host();
    host.write_sector(1, 0x0101);
    host.write_sector(2, 0x0202);
    assert_eq!(host.buffer(), vec![0x0202; 256]);
    host.lba(2, 1);
    host.command(READ);
    assert_eq!(host.buffer(), vec![0x0101; 256], "whole once it is ready");
    let identify = host.identify();
    assert_eq!(host.buffer(), identify);
}

#[test]
fn each_command_keeps_the_high_nibble_of_device_head() {
    for code in [READ, VERIFY, SEEK, 0x10] {
        let mut host = host();
        host.set_registers([2, 1, 0, 0, 0xA0]);
        host.command(code);
        while host.status() == 0x58 {
            host.word();
        }
        assert_eq!(host.read(DEVICE_HEAD) & 0xF0, 0xA0);
    }
}

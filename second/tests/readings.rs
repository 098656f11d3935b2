//! The readings of document 01, 1 to 29, each test named by its number and rule.

mod common;
use common::*;
use second::{Answer, Device, Identity};

#[test]
fn reading_01_f3h_runs_in_every_lock_state_and_bah_to_bfh_abort() {
    let mut frozen = host();
    frozen.command(FREEZE);
    for mut host in [host(), locked(0), frozen] {
        host.command(ERASE_PREPARE);
        host.ended_well();
        for code in 0xBA..=0xBF {
            host.command(code);
            host.aborted();
        }
    }
    let mut host = locked(0);
    host.command(ERASE_PREPARE);
    host.password(ERASE_UNIT, USER, 0x55);
    host.ended_well();
}

#[test]
fn reading_02_a_seek_checks_the_whole_address_sector_included() {
    let mut host = host();
    host.chs(1, 0, 0, 0);
    host.command(SEEK);
    host.bad_address();
    host.chs(1, 0, 0, 9);
    host.command(0x7F);
    host.bad_address();
}

#[test]
fn reading_03_51h_lasts_until_the_next_command_that_is_not_ignored_or_a_reset() {
    let failed = || {
        let mut host = host();
        host.command(0x00);
        host.read(STATUS);
        host.read(ERROR);
        host.set_registers([1, 1, 0, 0, DEV]);
        host.command(SEEK);
        host.write(DEVICE_HEAD, 0);
        host.write(CONTROL, NIEN);
        assert_eq!(host.status(), 0x51);
        host
    };
    let ends: [fn(&mut Host); 4] = [
        |host| host.command(SEEK),
        |host| host.software_reset(),
        |host| host.hardware_reset(),
        |host| host.power_on(),
    ];
    for end in ends {
        let mut host = failed();
        end(&mut host);
        assert_eq!(host.status(), 0x50);
    }
}

#[test]
fn reading_03_status_is_not_worked_out_from_error() {
    let mut host = host();
    assert_eq!((host.status(), host.error()), (0x50, 0x01));
    host.command(0x00);
    host.command(DIAGNOSTIC);
    assert_eq!((host.status(), host.error()), (0x50, 0x01));
}

#[test]
fn reading_04_error_is_00h_in_a_transfer_and_after_every_good_command_but_90h() {
    let mut host = host();
    host.command(IDENTIFY);
    assert_eq!(host.error(), 0x00);
    host.words(256);
    assert_eq!(host.error(), 0x00);
    for code in [SEEK, 0x10, VERIFY, ERASE_PREPARE, FREEZE] {
        host.chs(1, 0, 0, 1);
        host.command(0x00);
        host.command(code);
        host.ended_well();
    }
}

#[test]
fn reading_05_a_drop_is_no_end_and_the_new_command_starts_from_the_host_s_values() {
    let mut host = host();
    host.lba(3, 10);
    host.command(READ);
    host.words(300);
    host.command(VERIFY);
    host.ended_well();
    assert_eq!(host.registers(), [0, 12, 0, 0, LBA]);
    host.lba(3, 10);
    host.command(READ);
    host.words(300);
    host.command(0x00);
    assert_eq!(host.registers(), [3, 10, 0, 0, LBA]);
}

#[test]
fn reading_06_device_control_acts_during_a_transfer_and_with_dev_set() {
    let mut host = host();
    host.command(READ);
    assert!(host.line());
    host.write(CONTROL, NIEN);
    assert!(!host.line());
    host.write(CONTROL, 0);
    assert!(host.line());
    host.write(CONTROL, SRST);
    host.no_transfer();
    host.write(CONTROL, 0);
    host.command(SEEK);
    host.write(DEVICE_HEAD, DEV);
    host.write(CONTROL, NIEN);
    assert!(!host.line());
    host.write(CONTROL, SRST);
    assert_eq!(host.status(), 0x80, "DEV is clear again");
}

#[test]
fn reading_06_nien_is_bit_1_of_the_last_write_also_with_srst_and_other_bits_are_ignored() {
    let mut host = host();
    for (during, after, line) in [(SRST | NIEN, NIEN, false), (SRST | NIEN, 0, true)] {
        host.write(CONTROL, during);
        host.write(CONTROL, after);
        host.command(SEEK);
        assert_eq!(host.line(), line);
    }
    host.write(CONTROL, 0xF9);
    assert_eq!(host.status(), 0x50);
    host.command(SEEK);
    assert!(host.line());
}

#[test]
fn reading_07_with_dev_set_writes_act_and_ignored_commands_leave_error_and_interrupt() {
    let mut host = host();
    host.command(0x00);
    host.write(DEVICE_HEAD, DEV);
    host.set_registers([5, 6, 7, 8, DEV | 9]);
    host.command(SEEK);
    assert_eq!(host.registers(), [5, 6, 7, 8, DEV | 9]);
    assert_eq!(host.error(), 0x04);
    assert!(host.line(), "the line doesn't look at DEV");
}

#[test]
fn reading_07_90h_with_dev_set_is_a_whole_command() {
    let mut host = host();
    host.command(0x00);
    host.read(STATUS);
    host.set_registers([5, 6, 7, 8, DEV | 9]);
    host.command(DIAGNOSTIC);
    assert!(host.line());
    assert_eq!((host.read(STATUS), host.error()), (0x50, 0x01));
    assert_eq!(host.registers(), [1, 1, 0, 0, 0]);
}

#[test]
fn reading_08_90h_during_held_reset_does_nothing() {
    let mut host = host();
    host.write(CONTROL, SRST);
    host.command(DIAGNOSTIC);
    assert_eq!(host.status(), 0x80);
    host.write(CONTROL, 0);
    assert!(!host.line());
}

#[test]
fn reading_10_device_head_keeps_all_eight_bits() {
    let mut host = host();
    for value in 0..=255 {
        host.write(DEVICE_HEAD, value);
        assert_eq!(host.read(DEVICE_HEAD), value);
    }
}

#[test]
fn reading_11_ignored_writes_are_answer_0_and_bad_registers_answer_1_in_every_state() {
    let mut held = host();
    held.write(CONTROL, SRST);
    let mut dev = host();
    dev.write(DEVICE_HEAD, DEV);
    let mut busy = host();
    busy.command(WRITE);
    for host in [&mut held, &mut dev, &mut busy] {
        for register in [0, 9, 255] {
            assert_eq!(host.device.read_register(register), Answer::NoRegister);
            assert_eq!(host.device.write_register(register, 0), Answer::NoRegister);
        }
        for register in 1..=6 {
            let answer = host.device.write_register(register, DEV);
            assert_eq!(answer, Answer::Done(0));
        }
        assert_eq!(host.device.read_word(), Answer::NoTransfer);
    }
    assert_eq!(held.device.write_register(COMMAND, READ), Answer::Done(0));
    assert_eq!(dev.device.write_register(COMMAND, READ), Answer::Done(0));
}

#[test]
fn reading_12_the_last_word_of_any_data_in_command_neither_raises_nor_clears() {
    for code in [READ, 0x21, IDENTIFY, READ_BUFFER] {
        let mut host = host();
        host.command(code);
        host.words(256);
        assert!(host.line(), "not cleared");
        host.chs(1, 0, 0, 1);
        host.command(code);
        host.words(255);
        host.read(STATUS);
        host.word();
        assert!(!host.line(), "not raised");
    }
}

#[test]
fn reading_13_aborts_at_once_raise_verify_raises_and_nien_gates_the_line_only() {
    let mut host = locked(0);
    host.command(READ);
    assert!(host.raised());
    let mut host = common::host();
    host.chs(64, 0, 0, 1);
    host.write(CONTROL, NIEN);
    host.command(VERIFY);
    assert!(!host.line());
    host.write(CONTROL, 0);
    assert!(host.raised());
}

#[test]
fn reading_14_the_next_sector_is_reached_at_the_256th_word_of_the_one_before() {
    let mut host = host();
    host.write_sector(1, 0x0B0B);
    host.lba(2, 0);
    host.command(READ);
    host.words(256);
    assert_eq!(host.buffer(), vec![0x0B0B; 256]);
    host.lba(2, 63);
    host.command(WRITE);
    host.put_all(&[1; 255]);
    assert_eq!(host.status(), 0x58);
    host.put(1);
    host.bad_address();
}

#[test]
fn reading_15_after_a_bad_second_address_the_buffer_keeps_the_last_good_sector() {
    let mut host = host();
    host.write_sector(63, 0x6363);
    host.write_sector(0, 0);
    host.lba(2, 63);
    host.command(READ);
    host.words(256);
    assert_eq!(host.buffer(), vec![0x6363; 256]);
}

#[test]
fn reading_15_in_chs_the_bad_address_past_the_end_is_c_cylinders_h_0_s_1() {
    for code in [READ, VERIFY] {
        let mut host = host();
        host.chs(9, 3, 1, 8);
        host.write(DEVICE_HEAD, 0xA1);
        host.command(code);
        while host.status() == 0x58 {
            host.word();
        }
        host.bad_address();
        assert_eq!(host.registers(), [8, 1, 4, 0, 0xA0]);
    }
}

#[test]
fn reading_16_verify_leaves_the_buffer_and_a_cut_write_leaves_its_words_over_what_was_there() {
    for code in [WRITE, WRITE_BUFFER] {
        let mut host = host();
        host.command(WRITE_BUFFER);
        host.put_all(&[0xAAAA; 256]);
        host.command(VERIFY);
        host.chs(1, 0, 0, 1);
        host.command(code);
        host.put_all(&[0xBBBB; 3]);
        let buffer = host.buffer();
        assert_eq!(buffer[..3], [0xBBBB; 3]);
        assert_eq!(buffer[3..], [0xAAAA; 253]);
    }
}

#[test]
fn reading_16_identify_fills_the_buffer_at_the_command_write() {
    let mut host = host();
    host.command(IDENTIFY);
    assert_eq!(host.buffer()[0], 0x0040);
}

#[test]
fn reading_17_90h_over_an_open_f4h_finds_buffer_and_preparation_gone() {
    let mut host = host();
    host.command(ERASE_PREPARE);
    host.command(ERASE_UNIT);
    host.put_all(&[0x1234; 99]);
    host.command(DIAGNOSTIC);
    assert_eq!(host.buffer(), vec![0; 256]);
    host.command(ERASE_UNIT);
    host.aborted();
}

#[test]
fn reading_17_f4h_over_an_open_f4h_aborts() {
    let mut host = host();
    host.command(ERASE_PREPARE);
    host.command(ERASE_UNIT);
    host.command(ERASE_UNIT);
    host.aborted();
    host.no_transfer();
}

#[test]
fn reading_17_a_dropped_read_leaves_the_buffer_and_other_drops_the_preparation() {
    let mut host = host();
    host.write_sector(0, 0x7070);
    host.command(ERASE_PREPARE);
    host.sector(0);
    host.command(UNLOCK);
    host.put(1);
    host.command(SEEK);
    host.password(ERASE_UNIT, USER, 0);
    host.ended_well();
}

#[test]
fn reading_18_a_command_aborted_at_once_leaves_the_buffer() {
    let mut host = host();
    host.command(FREEZE);
    host.command(WRITE_BUFFER);
    host.put_all(&[0x3C3C; 256]);
    for code in [SET_PASSWORD, UNLOCK, ERASE_UNIT, DISABLE_PASSWORD, 0x00] {
        host.command(code);
        host.aborted();
    }
    assert_eq!(host.buffer(), vec![0x3C3C; 256]);
}

#[test]
fn reading_19_locked_aborts_before_a_bad_address() {
    let mut host = locked(0);
    host.lba(1, 64);
    for code in [READ, WRITE, VERIFY] {
        host.command(code);
        host.aborted();
    }
    host.command(SEEK);
    host.bad_address();
}

#[test]
fn reading_19_91h_refused_leaves_the_old_translation_and_caps_cylinders_at_65_535() {
    let mut host = host();
    host.set_registers([8, 1, 0, 0, 0]);
    host.command(PARAMETERS);
    host.set_registers([0, 1, 0, 0, 3]);
    host.command(PARAMETERS);
    host.aborted();
    assert_eq!(host.identify()[54..57], [8, 1, 8]);
    let mut host = host_with(1_024, 16, 5);
    host.set_registers([1, 1, 0, 0, 0]);
    host.command(PARAMETERS);
    host.ended_well();
    assert_eq!(host.identify()[54..59], [65_535, 1, 1, 65_535, 0]);
    host.chs(2, 65_534, 0, 1);
    host.command(VERIFY);
    host.bad_address();
    assert_eq!(host.registers(), [1, 1, 0xFF, 0xFF, 0]);
}

#[test]
fn reading_20_password_byte_0_is_the_low_byte_of_word_1() {
    let master = std::array::from_fn(|byte| byte as u8 + 1);
    let device = Device::setup(4, 2, 8, &Identity::SPACES, master).unwrap();
    let mut host = Host { device };
    host.password(SET_PASSWORD, USER, 0x55);
    host.power_on();
    host.command(UNLOCK);
    host.put(MASTER);
    for byte in (1..32).step_by(2) {
        host.put((byte + 1) << 8 | byte);
    }
    host.put_all(&[0; 239]);
    host.ended_well();
}

#[test]
fn reading_21_f2h_always_takes_its_block_and_master_at_maximum_aborts_at_the_256th_word() {
    let mut host = host();
    host.command(UNLOCK);
    assert_eq!(host.status(), 0x58);
    let mut host = locked(MAXIMUM);
    host.command(UNLOCK);
    host.put_all(&password_block(MASTER, [0; 32])[..255]);
    assert_eq!(host.status(), 0x58);
    host.put(0);
    host.aborted();
}

#[test]
fn reading_21_a_guess_cut_before_its_256th_word_costs_nothing() {
    let mut host = locked(0);
    for _ in 0..9 {
        host.command(UNLOCK);
        host.put_all(&[0; 255]);
    }
    assert_eq!(host.security(), 0x0007);
    host.password(UNLOCK, USER, 0x55);
    host.ended_well();
}

#[test]
fn reading_22_f4h_and_f6h_with_security_off_take_any_block_and_f6h_the_master_at_maximum() {
    let mut host = host();
    host.write_sector(1, 1);
    host.password(DISABLE_PASSWORD, USER, 0x99);
    host.ended_well();
    assert_eq!(host.sector(1), vec![1; 256]);
    host.command(ERASE_PREPARE);
    host.password(ERASE_UNIT, MASTER, 0x99);
    host.ended_well();
    assert_eq!(host.sector(1), vec![0; 256]);
    host.password(SET_PASSWORD, USER | MAXIMUM, 0x55);
    host.password(DISABLE_PASSWORD, MASTER, 0);
    host.ended_well();
    assert_eq!(host.security(), 0x0001);
}

#[test]
fn reading_23_any_abort_of_f4h_ends_the_preparation() {
    let mut host = host();
    host.password(SET_PASSWORD, USER, 1);
    host.command(ERASE_PREPARE);
    host.password(ERASE_UNIT, USER, 2);
    host.aborted();
    host.command(ERASE_UNIT);
    host.aborted();
    host.no_transfer();
}

#[test]
fn reading_23_an_ignored_f4h_leaves_the_preparation() {
    let mut host = host();
    host.command(ERASE_PREPARE);
    host.write(DEVICE_HEAD, DEV);
    host.command(ERASE_UNIT);
    host.write(DEVICE_HEAD, 0);
    host.command(ERASE_UNIT);
    assert_eq!(host.status(), 0x58);
}

#[test]
fn reading_26_f5h_while_frozen_ends_well_and_spare_bits_and_words_are_ignored() {
    let mut host = host();
    host.command(FREEZE);
    host.command(FREEZE);
    host.ended_well();
    host.power_on();
    host.password(SET_PASSWORD, MASTER | MAXIMUM, 3);
    assert_eq!(host.security(), 0x0001);
    let mut block = password_block(0xFEFE, [0x55; 32]);
    block[17..].fill(0xFFFF);
    host.command(SET_PASSWORD);
    host.put_all(&block);
    assert_eq!(host.security(), 0x0003);
    host.power_on();
    host.password(UNLOCK, USER, 0x55);
    host.ended_well();
}

//! Document 01, Leaks and slips we have met.

mod common;
use common::*;

#[test]
fn read_buffer_while_locked_does_not_show_the_last_sector() {
    let mut host = host();
    host.password(SET_PASSWORD, USER, 0x55);
    host.write_sector(0, 0xCAFE);
    host.sector(0);
    host.power_on();
    assert_eq!(host.buffer(), vec![0; 256]);
}

#[test]
fn read_buffer_after_unlock_does_not_show_the_password() {
    let mut host = locked(0);
    host.password(UNLOCK, USER, 0x55);
    assert_eq!(host.buffer(), vec![0; 256]);
}

#[test]
fn a_password_cut_off_by_a_new_command_is_not_left_in_the_buffer() {
    let mut host = locked(0);
    host.command(UNLOCK);
    host.put_all(&password_block(USER, [0x55; 32])[..20]);
    assert_eq!(host.buffer(), vec![0; 256]);
    assert_eq!(host.security(), 0x0007);
}

#[test]
fn soft_reset_does_not_give_back_attempts() {
    let mut host = locked(0);
    for _ in 0..4 {
        host.password(UNLOCK, USER, 0);
    }
    host.software_reset();
    host.password(UNLOCK, USER, 0);
    assert_eq!(host.security(), 0x0017);
}

#[test]
fn all_32_password_bytes_are_compared() {
    for byte in 0..32 {
        let mut host = locked(0);
        let mut guess = [0x55; 32];
        guess[byte] ^= 0x80;
        host.command(UNLOCK);
        host.put_all(&password_block(USER, guess));
        host.aborted();
    }
}

#[test]
fn unlock_does_not_take_the_master_at_maximum() {
    let mut host = locked(MAXIMUM);
    host.password(UNLOCK, MASTER, 0);
    host.aborted();
    assert_eq!(host.security(), 0x0107);
}

#[test]
fn no_identify_word_is_worked_out_from_sectors() {
    let mut host = host();
    let before = host.identify();
    (0..64).for_each(|sector| host.write_sector(sector, 0xA5A5 ^ sector as u16));
    assert_eq!(host.identify(), before);
}

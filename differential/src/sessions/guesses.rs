//! Password blocks: the right ones, those wrong in one way, and their surroundings.

use crate::guest::Guest;
use crate::lock_memory::Password;

const MASTER: u16 = 0x0001;
const MAXIMUM: u16 = 0x0100;

#[derive(Clone, Copy)]
pub enum Guess {
    RightUser,
    RightMaster,
    OneByteWrong,
    OtherPurpose,
    Zero,
    Random,
}

pub const ALL_GUESSES: [(Guess, &str); 6] = [
    (Guess::RightUser, "right user"),
    (Guess::RightMaster, "right master"),
    (Guess::OneByteWrong, "one byte wrong"),
    (Guess::OtherPurpose, "other purpose bit"),
    (Guess::Zero, "zero"),
    (Guess::Random, "random"),
];

pub fn random_password(guest: &mut Guest) -> Password {
    match guest.random.below(6) {
        0 => [0; 32],
        1 => [0xFF; 32],
        2 => [guest.random.byte(); 32],
        _ => [(); 32].map(|()| guest.random.byte()),
    }
}

fn right_password(guest: &Guest, master: bool) -> Password {
    match master {
        true => guest.memory.lock.master,
        false => guest.memory.lock.user,
    }
}

/// The right password with one bit of one byte turned over.
fn one_byte_wrong(guest: &mut Guest, master: bool) -> Password {
    let place = guest.random.below(32) as usize;
    let bit = 1 << guest.random.below(8);
    guest.intentions.wrong_bytes[place] += 1;
    let mut password = right_password(guest, master);
    password[place] ^= bit;
    password
}

/// A whole block; what the rules call ignored is random or zero.
pub fn block(guest: &mut Guest, master: bool, maximum: bool, password: &Password) -> Vec<u16> {
    let noisy = guest.random.one_in(2);
    let mut block: Vec<u16> = (0..256)
        .map(|_| if noisy { guest.random.word() } else { 0 })
        .collect();
    block[0] &= !(MASTER | MAXIMUM);
    block[0] |= if master { MASTER } else { 0 } | if maximum { MAXIMUM } else { 0 };
    for (word, bytes) in block[1..17].iter_mut().zip(password.chunks(2)) {
        *word = u16::from_le_bytes([bytes[0], bytes[1]]);
    }
    block
}

pub fn guessed_block(guest: &mut Guest, guess: Guess) -> Vec<u16> {
    let (_, name) = ALL_GUESSES[guess as usize];
    guest.intentions.guess(name);
    let maximum = guest.random.one_in(2);
    let either = guest.random.one_in(2);
    let (master, password) = match guess {
        Guess::RightUser => (false, right_password(guest, false)),
        Guess::RightMaster => (true, right_password(guest, true)),
        Guess::OneByteWrong => (either, one_byte_wrong(guest, either)),
        Guess::OtherPurpose => (either, right_password(guest, !either)),
        Guess::Zero => (either, [0; 32]),
        Guess::Random => (either, random_password(guest)),
    };
    block(guest, master, maximum, &password)
}

pub fn any_guess(guest: &mut Guest) -> Guess {
    let kinds = ALL_GUESSES.map(|(guess, _)| guess);
    kinds[guest.random.weighted(&[6, 4, 5, 2, 1, 1])]
}

pub fn wrong_guess(guest: &mut Guest) -> Guess {
    guest.random.pick(&[
        Guess::OneByteWrong,
        Guess::OneByteWrong,
        Guess::OtherPurpose,
        Guess::Random,
    ])
}

/// Sends a command and its block, or a word that nobody wants where the command aborts.
pub fn send_block(guest: &mut Guest, code: u8, block: &[u16]) {
    guest.command(code);
    if guest.random.one_in(2) {
        guest.poll();
    }
    match guest.memory.transfer.is_some() {
        true => guest.carry_given(block),
        false => guest.word_that_is_not_due(),
    }
    guest.read(8);
    guest.look_after_command();
}

pub fn send_guess(guest: &mut Guest, code: u8, guess: Guess) {
    let block = guessed_block(guest, guess);
    send_block(guest, code, &block);
}

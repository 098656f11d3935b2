//! Every way to be turned away: numbers, lengths, order, and that nothing has changed then.

mod common;

use common::action::{on_lent, Action, Raw, UNTOUCHED};
use common::guest::reached;
use common::judge::in_shape;
use common::random::Random;
use common::view::*;
use std::sync::OnceLock;
use thinnarom::lent::{setup, Lent, Reply, BUFFER_BYTES, IDENTITY_BYTES, STATE_BYTES};

const SEED: u64 = 3;
const SECTORS: usize = 512 * 64;

/// Disks that sessions come to, one for each transfer and lock state, over sectors that are not
/// zero.
fn disks(random: &mut Random) -> Vec<Raw> {
    let disk = |state| Raw {
        state,
        buffer: random.bytes(BUFFER_BYTES).try_into().unwrap(),
        sectors: random.bytes(SECTORS),
    };
    static REACHED: OnceLock<Vec<State>> = OnceLock::new();
    let states = REACHED.get_or_init(|| reached(SEED));
    states.iter().copied().map(disk).collect()
}

/// One of each action, none turned away for its own sake but words, which depend on the transfer.
fn one_of_each() -> [Action; 9] {
    [
        Action::ReadRegister(7),
        Action::WriteRegister(7, 0xEC),
        Action::ReadWord,
        Action::WriteWord(0x1234),
        Action::ReadWords(600),
        Action::WriteWords(vec![0x5A; 600]),
        Action::HardwareReset,
        Action::PowerOn,
        Action::Line,
    ]
}

/// Does an action over these pieces and holds it to a refusal that changes none of them.
fn refused(
    state: &mut [u8],
    buffer: &mut [u8; 512],
    sectors: &mut [u8],
    action: &Action,
    answer: u32,
) {
    let before = (state.to_vec(), *buffer, sectors.to_vec());
    let mut lent = Lent {
        state,
        buffer,
        sectors,
    };
    let got = on_lent(&mut lent, action);
    let lengths = (lent.state.len(), lent.sectors.len());
    assert_eq!(
        got.reply,
        Reply { answer, value: 0 },
        "{action:02X?}, {lengths:?}"
    );
    assert!(
        got.room.iter().all(|byte| *byte == UNTOUCHED),
        "{action:02X?}, {lengths:?}"
    );
    let after = (lent.state.to_vec(), *lent.buffer, lent.sectors.to_vec());
    assert!(
        after == before,
        "{action:02X?}, {lengths:?}: refused, and something changed"
    );
}

/// The same, on a disk and its own memory.
fn refused_on(disk: &mut Raw, action: &Action, answer: u32) {
    refused(
        &mut disk.state,
        &mut disk.buffer,
        &mut disk.sectors,
        action,
        answer,
    );
}

#[test]
fn all_register_numbers_in_every_transfer_and_lock_state() {
    let random = &mut Random::new(SEED, 0);
    let disks = disks(random);
    for disk in disks {
        for n in 0..=255 {
            for action in [
                Action::ReadRegister(n),
                Action::WriteRegister(n, random.byte()),
            ] {
                let mut disk = disk.clone();
                if (1..=8).contains(&n) {
                    assert_eq!(
                        on_lent(&mut disk.lend(), &action).reply.answer,
                        0,
                        "{action:02X?}"
                    );
                    assert!(in_shape(&disk.state));
                } else {
                    refused_on(&mut disk, &action, 1);
                }
            }
        }
    }
}

#[test]
fn words_against_every_transfer() {
    for mut disk in disks(&mut Random::new(SEED, 1)) {
        let (read, written) = (is_read(disk.state[KIND]), is_written(disk.state[KIND]));
        let [_, _, read_word, write_word, read_words, write_words, ..] = one_of_each();
        let against_reading = [write_word, write_words, Action::WriteWords(vec![1, 2])];
        let against_writing = [read_word, read_words, Action::ReadWords(2)];
        let turned_away = [(!written, against_reading), (!read, against_writing)];
        for (_, actions) in turned_away
            .into_iter()
            .filter(|(turned_away, _)| *turned_away)
        {
            for action in actions {
                refused_on(&mut disk, &action, 4);
            }
        }
    }
}

#[test]
fn sectors_of_another_length_come_before_register_and_transfer() {
    let random = &mut Random::new(SEED, 2);
    let mut pool = random.bytes(2 * SECTORS);
    let lengths = [
        0,
        1,
        511,
        512,
        SECTORS - 512,
        SECTORS - 1,
        SECTORS + 1,
        SECTORS + 512,
        2 * SECTORS,
    ];
    for mut disk in disks(random) {
        for length in lengths {
            let others = [
                Action::ReadRegister(9),
                Action::WriteRegister(0, 1),
                Action::ReadWords(0),
            ];
            for action in one_of_each().into_iter().chain(others) {
                refused(
                    &mut disk.state,
                    &mut disk.buffer,
                    &mut pool[..length],
                    &action,
                    3,
                );
            }
        }
    }
}

#[test]
fn states_of_another_length_come_before_all_else() {
    let random = &mut Random::new(SEED, 3);
    let disks = disks(random);
    let mut sectors = random.bytes(SECTORS);
    let tail = random.bytes(400);
    for (number, mut disk) in disks.into_iter().enumerate() {
        let mut state = [&disk.state[..], &tail].concat();
        for length in (0..state.len()).filter(|length| *length != STATE_BYTES) {
            let lent = [SECTORS, 0, 1][length % 3];
            let action = &one_of_each()[(length + number) % 9];
            refused(
                &mut state[..length],
                &mut disk.buffer,
                &mut sectors[..lent],
                action,
                2,
            );
        }
        for action in one_of_each() {
            refused(&mut [], &mut disk.buffer, &mut sectors, &action, 2);
            refused(
                &mut [0; STATE_BYTES],
                &mut disk.buffer,
                &mut sectors,
                &action,
                2,
            );
        }
    }
}

#[test]
fn room_for_no_word_is_done_in_every_transfer() {
    for disk in disks(&mut Random::new(SEED, 4)) {
        let none = [0, 1].map(Action::ReadWords).into_iter();
        for action in none.chain([0, 1].map(|length| Action::WriteWords(vec![7; length]))) {
            let mut after = disk.clone();
            let got = on_lent(&mut after.lend(), &action);
            assert_eq!(
                got.reply,
                Reply {
                    answer: 0,
                    value: 0
                }
            );
            assert!(got.room.iter().all(|byte| *byte == UNTOUCHED));
            assert!(after.state == disk.state && after.buffer == disk.buffer);
            assert!(after.sectors == disk.sectors);
        }
    }
}

/// What setup is given.
#[derive(Clone)]
struct Asked {
    counts: (u16, u8, u8),
    identity: Vec<u8>,
    master: Vec<u8>,
}

impl Asked {
    fn good() -> Asked {
        Asked {
            counts: (4, 2, 8),
            identity: vec![b'x'; IDENTITY_BYTES],
            master: vec![0x5A; 32],
        }
    }

    fn with_counts(counts: (u16, u8, u8)) -> Asked {
        Asked {
            counts,
            ..Asked::good()
        }
    }

    /// Setup over memory full of something: taken, or refused with all of it zero.
    fn gives(&self, answer: u32) {
        let (mut state, mut buffer) = ([0xEE; STATE_BYTES], [0xEE; BUFFER_BYTES]);
        let reply = setup(
            &mut state,
            &mut buffer,
            self.counts,
            &self.identity,
            &self.master,
        );
        let (counts, lengths) = (self.counts, (self.identity.len(), self.master.len()));
        assert_eq!(reply, Reply { answer, value: 0 }, "{counts:?}, {lengths:?}");
        assert_eq!(buffer, [0; BUFFER_BYTES], "{counts:?}, {lengths:?}");
        if answer == 0 {
            assert_eq!(state, self.disk());
        } else {
            assert_eq!(state, [0; STATE_BYTES], "{counts:?}, {lengths:?}");
        }
    }

    /// The state that the papers and the table of bytes give a disk just powered on.
    fn disk(&self) -> State {
        let mut state = [0; STATE_BYTES];
        let (cylinders, heads, sectors) = self.counts;
        let [low, high] = cylinders.to_le_bytes();
        state[..7].copy_from_slice(&[0x01, 0x00, 0x01, 0x01, 0x00, 0x00, 0x00]);
        for counts in [GEOMETRY, TRANSLATION] {
            state[counts].copy_from_slice(&[low, high, heads, sectors]);
        }
        state[ATTEMPTS] = 5;
        state[IDENTITY].copy_from_slice(&self.identity);
        state[MASTER].copy_from_slice(&self.master);
        state
    }
}

#[test]
fn setup_at_the_limits_and_beyond() {
    for counts in [
        (1, 1, 1),
        (1_024, 16, 63),
        (4, 2, 8),
        (1_024, 1, 1),
        (1, 16, 1),
        (1, 1, 63),
    ] {
        Asked::with_counts(counts).gives(0);
    }
    for cylinders in [0, 1_025, 1_280, 32_768, 65_535] {
        Asked::with_counts((cylinders, 2, 8)).gives(6);
    }
    for count in 0..=255 {
        Asked::with_counts((4, count, 8)).gives(if (1..=16).contains(&count) { 0 } else { 6 });
        Asked::with_counts((4, 2, count)).gives(if (1..=63).contains(&count) { 0 } else { 6 });
    }
}

#[test]
fn setup_takes_every_printable_byte_at_every_place_and_no_other() {
    for place in 0..IDENTITY_BYTES {
        for byte in 0..=255 {
            let mut asked = Asked::good();
            asked.identity[place] = byte;
            asked.gives(if (0x20..=0x7E).contains(&byte) { 0 } else { 6 });
        }
    }
    for byte in 0..=255 {
        Asked {
            master: vec![byte; 32],
            ..Asked::good()
        }
        .gives(0);
    }
}

#[test]
fn setup_of_other_lengths() {
    for length in (0..200).filter(|length| *length != IDENTITY_BYTES) {
        Asked {
            identity: vec![b'x'; length],
            ..Asked::good()
        }
        .gives(6);
    }
    for length in (0..200).filter(|length| *length != 32) {
        Asked {
            master: vec![0; length],
            ..Asked::good()
        }
        .gives(6);
    }
}

#[test]
fn setup_over_states_of_other_lengths() {
    for asked in [Asked::good(), Asked::with_counts((0, 0, 0))] {
        for length in (0..400).filter(|length| *length != STATE_BYTES) {
            let (mut state, mut buffer) = (vec![0xEE; length], [0xEE; BUFFER_BYTES]);
            let reply = setup(
                &mut state,
                &mut buffer,
                asked.counts,
                &asked.identity,
                &asked.master,
            );
            assert_eq!(
                reply,
                Reply {
                    answer: 2,
                    value: 0
                },
                "{length}"
            );
            assert!(
                state.iter().chain(&buffer).all(|byte| *byte == 0xEE),
                "{length}"
            );
        }
    }
}

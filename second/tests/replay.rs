//! Document 01, Replay.

use second::replay;
use std::io::{self, Error, ErrorKind, Read, Write};

const STATUS_READ: [u8; 4] = [0, 2, 1, 7];
const STATUS_REPLY: [u8; 5] = [0, 3, 0, 0, 0x50];
const FAULT: [u8; 3] = [0, 1, 5];

fn reply(recording: &[u8]) -> Vec<u8> {
    let mut bytes = Vec::new();
    replay(recording, &mut bytes).unwrap();
    bytes
}

fn joined(parts: &[&[u8]]) -> Vec<u8> {
    parts.concat()
}

/// Gives at most so many bytes at a time, over and over through the list.
struct Parts<'a> {
    bytes: &'a [u8],
    sizes: std::iter::Cycle<std::slice::Iter<'a, usize>>,
}

impl Read for Parts<'_> {
    fn read(&mut self, room: &mut [u8]) -> io::Result<usize> {
        let most = room.len().min(*self.sizes.next().unwrap());
        self.bytes.read(&mut room[..most])
    }
}

fn reply_in_parts(bytes: &[u8], sizes: &[usize]) -> Vec<u8> {
    let sizes = sizes.iter().cycle();
    let mut reply = Vec::new();
    replay(Parts { bytes, sizes }, &mut reply).unwrap();
    reply
}

/// A long recording with whole and cut transfers, turned-away words, polls and all seven kinds.
fn recording() -> Vec<u8> {
    let mut bytes = vec![1];
    let mut seed = 1u32;
    for turn in 0..60u8 {
        for (register, value) in [(2, 3), (3, turn), (4, 0), (5, 0), (6, 0x40)] {
            bytes.extend([0, 3, 2, register, value]);
        }
        bytes.extend([0, 3, 2, 7, 0x30]);
        for word in 0..700 + u16::from(turn) {
            seed = seed.wrapping_mul(1_664_525).wrapping_add(1_013_904_223);
            bytes.extend([0, 3, 4, (seed >> 24) as u8, (seed >> 16) as u8]);
            if word % 97 == u16::from(turn) {
                bytes.extend([0, 2, 1, 8, 0, 1, 7]);
            }
        }
        bytes.extend([0, 3, 2, 7, [0x20, 0xEC, 0xE4][usize::from(turn % 3)]]);
        for word in 0..300 + u16::from(turn) {
            bytes.extend([0, 1, 3]);
            if word % 61 == u16::from(turn) {
                bytes.extend([0, 2, 1, 7, 0, 1, 7]);
            }
        }
        bytes.extend([0, 2, 1, 9, 0, 3, 2, 0, 5, 0, 1, 5 + turn % 2]);
    }
    bytes
}

/// The reply to a recording worked out one action at a time on the device.
fn reply_by_actions(recording: &[u8]) -> Vec<u8> {
    let identity = second::Identity::SPACES;
    let mut device = second::Device::setup(4, 2, 8, &identity, [0; 32]).unwrap();
    let mut reply = vec![1];
    let mut rest = &recording[1..];
    while let [0, size, payload @ ..] = rest {
        let (payload, after) = payload.split_at(usize::from(*size));
        rest = after;
        let answer = match *payload {
            [1, register] => device.read_register(register),
            [2, register, value] => device.write_register(register, value),
            [3] => device.read_word(),
            [4, high, low] => device.write_word(u16::from_be_bytes([high, low])),
            [5] => device.hardware_reset(),
            [6] => device.power_on(),
            [7] => device.line(),
            _ => unreachable!(),
        };
        let [high, low] = answer.value().to_be_bytes();
        reply.extend([0, 3, answer.number(), high, low]);
    }
    reply
}

#[test]
fn empty_input_is_a_fault() {
    assert_eq!(reply(&[]), [1, 0, 1, 5]);
}

#[test]
fn a_lone_version_byte_gives_01() {
    assert_eq!(reply(&[1]), [1]);
}

#[test]
fn the_whole_case_gives_status_50h() {
    assert_eq!(reply(&[1, 0, 2, 1, 7]), [1, 0, 3, 0, 0, 0x50]);
}

#[test]
fn another_version_is_a_fault() {
    for version in [0, 2, 0xFF] {
        assert_eq!(reply(&[version, 0, 2, 1, 7]), [1, 0, 1, 5]);
    }
}

#[test]
fn each_kind_replies_with_length_3_answer_and_big_endian_value() {
    let read_register = [0, 2, 1, 2];
    let write_register = [0, 3, 2, 7, 0xE8];
    let write_word = [0, 3, 4, 0x12, 0x34];
    let read_buffer = [0, 3, 2, 7, 0xE4];
    let recording = joined(&[
        &[1],
        &read_register,
        &write_register,
        &write_word,
        &read_buffer,
        &[0, 1, 7],
        &[0, 1, 3],
        &[0, 1, 5],
        &[0, 1, 7],
        &[0, 1, 6],
    ]);
    let expected = joined(&[
        &[1],
        &[0, 3, 0, 0, 1],
        &[0, 3, 0, 0, 0],
        &[0, 3, 0, 0, 0],
        &[0, 3, 0, 0, 0],
        &[0, 3, 0, 0, 1],
        &[0, 3, 0, 0x12, 0x34],
        &[0, 3, 0, 0, 0],
        &[0, 3, 0, 0, 0],
        &[0, 3, 0, 0, 0],
    ]);
    assert_eq!(reply(&recording), expected);
}

#[test]
fn register_0_or_above_8_is_no_fault_and_a_word_without_transfer_is_answer_4() {
    let recording = [
        1, 0, 2, 1, 0, 0, 3, 2, 9, 7, 0, 1, 3, 0, 3, 4, 1, 2, 0, 2, 1, 7,
    ];
    let expected = joined(&[
        &[1],
        &[0, 3, 1, 0, 0],
        &[0, 3, 1, 0, 0],
        &[0, 3, 4, 0, 0],
        &[0, 3, 4, 0, 0],
        &STATUS_REPLY,
    ]);
    assert_eq!(reply(&recording), expected);
}

#[test]
fn reading_29_a_zero_length_record_is_a_fault() {
    let recording = joined(&[&[1], &STATUS_READ, &[0, 0], &STATUS_READ]);
    assert_eq!(reply(&recording), joined(&[&[1], &STATUS_REPLY, &FAULT]));
}

#[test]
fn reading_29_kinds_08_09_0a_and_other_unknown_kinds_are_faults() {
    for kind in [0, 8, 9, 0x0A, 0x7F, 0xFF] {
        for size in 1..=4 {
            let mut record = vec![0; 2 + usize::from(size)];
            (record[1], record[2]) = (size, kind);
            let recording = joined(&[&[1], &STATUS_READ, &record, &STATUS_READ]);
            assert_eq!(reply(&recording), joined(&[&[1], &STATUS_REPLY, &FAULT]));
        }
    }
}

#[test]
fn a_payload_longer_or_shorter_than_its_kind_is_a_fault() {
    for (kind, right) in [(1, 2), (2, 3), (3, 1), (4, 3), (5, 1), (6, 1), (7, 1)] {
        for size in (1..=300u16).filter(|size| *size != right) {
            let mut record = vec![1; 2 + usize::from(size)];
            record[..2].copy_from_slice(&size.to_be_bytes());
            record[2] = kind;
            let recording = joined(&[&[1], &record, &STATUS_READ]);
            assert_eq!(reply(&recording), joined(&[&[1], &FAULT]), "{kind} {size}");
        }
    }
}

#[test]
fn a_record_cut_short_is_a_fault() {
    let records: [&[u8]; 3] = [&[0, 2, 1, 7], &[0, 3, 2, 7, 0xEC], &[0, 3, 4, 1, 2]];
    for record in records
        .into_iter()
        .chain([&[0, 1, 3][..], &[0, 1, 5], &[0, 1, 6], &[0, 1, 7]])
    {
        for cut in 1..record.len() {
            let recording = joined(&[&[1], &STATUS_READ, &record[..cut]]);
            assert_eq!(reply(&recording), joined(&[&[1], &STATUS_REPLY, &FAULT]));
        }
    }
}

#[test]
fn a_length_beyond_every_kind_is_a_fault_at_once_and_nothing_more_is_read() {
    struct ThenPanic(bool);
    impl Read for ThenPanic {
        fn read(&mut self, room: &mut [u8]) -> io::Result<usize> {
            assert!(!self.0, "read again after the fault");
            self.0 = true;
            (&[1, 0, 2, 1, 7, 0xFF, 0xFF][..]).read(room)
        }
    }
    let mut bytes = Vec::new();
    replay(ThenPanic(false), &mut bytes).unwrap();
    assert_eq!(bytes, joined(&[&[1], &STATUS_REPLY, &FAULT]));
}

#[test]
fn the_faulty_record_is_not_run_and_earlier_replies_stand() {
    let recording = joined(&[&[1], &STATUS_READ, &[0, 4, 2, 7, 0xEC, 0], &STATUS_READ]);
    assert_eq!(reply(&recording), joined(&[&[1], &STATUS_REPLY, &FAULT]));
}

#[test]
fn the_reply_is_that_of_the_actions_one_by_one() {
    let recording = recording();
    assert_eq!(reply(&recording), reply_by_actions(&recording));
}

#[test]
fn the_reply_is_the_same_whatever_the_parts() {
    let recording = recording();
    let whole = reply(&recording);
    let sizes: [&[usize]; 7] = [
        &[1],
        &[2],
        &[3],
        &[7],
        &[1, 2, 3, 5, 8, 13],
        &[1_000],
        &[65_535, 1],
    ];
    for sizes in sizes {
        assert_eq!(reply_in_parts(&recording, sizes), whole, "{sizes:?}");
    }
}

#[test]
fn the_reply_is_the_same_wherever_a_record_crosses_the_chunk_border() {
    for shift in 0..16 {
        let mut recording = vec![1];
        (0..shift).for_each(|_| recording.extend(STATUS_READ));
        recording.extend(&recording_twice_the_chunk());
        assert_eq!(reply(&recording), reply_by_actions(&recording));
        recording.pop();
        let cut = reply(&recording);
        assert_eq!(cut[cut.len() - 3..], FAULT);
    }
}

/// Longer than two chunks, in records of five, three and four bytes.
fn recording_twice_the_chunk() -> Vec<u8> {
    let mut records = vec![0, 3, 2, 2, 0, 0, 3, 2, 7, 0x30];
    while records.len() < 70_000 {
        records.extend([0, 3, 4, 0x5A, 0xA5]);
    }
    records.extend([0, 3, 2, 7, 0x20]);
    while records.len() < 140_000 {
        records.extend([0, 1, 3]);
    }
    records.extend([0, 2, 1, 7]);
    records
}

#[test]
fn the_most_replies_a_chunk_can_ask_for_fit() {
    let mut recording = vec![1];
    (0..100_000).for_each(|_| recording.extend([0, 1, 7]));
    let mut expected = vec![1];
    (0..100_000).for_each(|_| expected.extend([0, 3, 0, 0, 0]));
    assert_eq!(reply(&recording), expected);
}

/// Gives a few reads and then an error; keeps what was written before each read.
#[test]
fn replies_are_written_after_each_read_and_before_a_read_error() {
    use std::{cell::RefCell, rc::Rc};
    struct Slow(Rc<RefCell<Vec<u8>>>, Vec<&'static [u8]>, Vec<usize>);
    impl Read for Slow {
        fn read(&mut self, room: &mut [u8]) -> io::Result<usize> {
            let expected = self.2.remove(0);
            assert_eq!(self.0.borrow().len(), expected);
            match self.1.remove(0) {
                [] => Err(Error::from(ErrorKind::ConnectionReset)),
                [0xFF] => Err(Error::from(ErrorKind::Interrupted)),
                mut part => part.read(room),
            }
        }
    }
    struct Shared(Rc<RefCell<Vec<u8>>>);
    impl Write for Shared {
        fn write(&mut self, bytes: &[u8]) -> io::Result<usize> {
            self.0.borrow_mut().write(bytes)
        }
        fn flush(&mut self) -> io::Result<()> {
            Ok(())
        }
    }
    let written = Rc::new(RefCell::new(Vec::new()));
    let parts: Vec<&[u8]> = vec![&[1], &[0, 2, 1], &[0xFF], &[7, 0, 1, 7, 0], &[]];
    let slow = Slow(written.clone(), parts, vec![0, 1, 1, 1, 11]);
    let error = replay(slow, Shared(written.clone())).unwrap_err();
    assert_eq!(error.kind(), ErrorKind::ConnectionReset);
}

#[test]
fn a_write_error_ends_the_replay() {
    struct Closed;
    impl Write for Closed {
        fn write(&mut self, _: &[u8]) -> io::Result<usize> {
            Err(Error::from(ErrorKind::BrokenPipe))
        }
        fn flush(&mut self) -> io::Result<()> {
            Ok(())
        }
    }
    assert!(replay(&[1, 0, 1, 7][..], Closed).is_err());
}

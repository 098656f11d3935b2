//! What a host can do to a disk, and the three disks that it is done to.

use second::Answer as SecondAnswer;
use thinnarom::lent::{Lent, Reply, BUFFER_BYTES};
use thinnarom::{Answer, Device};

use super::random::Random;
use super::view::State;

#[derive(Clone, Debug)]
pub enum Action {
    ReadRegister(u8),
    WriteRegister(u8, u8),
    ReadWord,
    WriteWord(u16),
    /// Room for so many bytes.
    ReadWords(usize),
    WriteWords(Vec<u8>),
    HardwareReset,
    PowerOn,
    Line,
}

pub const ACTIONS: [&str; 9] = [
    "read register",
    "write register",
    "read word",
    "write word",
    "read words",
    "write words",
    "hardware reset",
    "power-on",
    "line",
];

/// Every command that runs, so that actions drawn at random start transfers.
const CODES: [u8; 18] = [
    0x10, 0x20, 0x21, 0x30, 0x31, 0x40, 0x41, 0x70, 0x90, 0x91, 0xE4, 0xE8, 0xEC, 0xF1, 0xF2, 0xF3,
    0xF4, 0xF6,
];

impl Action {
    /// Any action, leaning to registers that are there.
    pub fn drawn(random: &mut Random) -> Action {
        let (register, value) = (random.byte(), random.byte());
        let length = random.below(20);
        match random.below(14) {
            0 | 1 => Action::ReadRegister(register % 11),
            2 => Action::ReadRegister(register),
            3..=5 => Action::WriteRegister(register % 11, value),
            6 => Action::WriteRegister(7, random.pick(&CODES)),
            7 => Action::ReadWord,
            8 => Action::WriteWord(random.word()),
            9 => Action::ReadWords(length),
            10 => Action::WriteWords(random.bytes(length)),
            11 => Action::HardwareReset,
            12 => Action::PowerOn,
            _ => Action::Line,
        }
    }

    /// Which of [`ACTIONS`] it is.
    pub fn number(&self) -> usize {
        match self {
            Action::ReadRegister(_) => 0,
            Action::WriteRegister(..) => 1,
            Action::ReadWord => 2,
            Action::WriteWord(_) => 3,
            Action::ReadWords(_) => 4,
            Action::WriteWords(_) => 5,
            Action::HardwareReset => 6,
            Action::PowerOn => 7,
            Action::Line => 8,
        }
    }
}

/// An answer, a value, and for words that are read in bulk the whole room for them, before the call
/// full of [`UNTOUCHED`].
#[derive(Debug, PartialEq, Eq)]
pub struct Outcome {
    pub reply: Reply,
    pub room: Vec<u8>,
}

pub const UNTOUCHED: u8 = 0xA5;

/// A disk as the library has it: bytes.
#[derive(Clone)]
pub struct Raw {
    pub state: State,
    pub buffer: [u8; BUFFER_BYTES],
    pub sectors: Vec<u8>,
}

impl Raw {
    pub fn lend(&mut self) -> Lent<'_> {
        Lent {
            state: &mut self.state,
            buffer: &mut self.buffer,
            sectors: &mut self.sectors,
        }
    }
}

/// One who takes actions that are no bulk.
pub trait Single {
    fn single(&mut self, action: &Action) -> Reply;
}

/// The call that an action is, on any type that has the calls under these names.
macro_rules! call {
    ($disk:ident, $action:ident) => {
        match *$action {
            Action::ReadRegister(n) => $disk.read_register(n),
            Action::WriteRegister(n, v) => $disk.write_register(n, v),
            Action::ReadWord => $disk.read_word(),
            Action::WriteWord(w) => $disk.write_word(w),
            Action::HardwareReset => $disk.hardware_reset(),
            Action::PowerOn => $disk.power_on(),
            Action::Line => $disk.line(),
            Action::ReadWords(_) | Action::WriteWords(_) => unreachable!("bulk"),
        }
    };
}

impl Single for Lent<'_> {
    fn single(&mut self, action: &Action) -> Reply {
        call!(self, action)
    }
}

impl Single for second::Device {
    fn single(&mut self, action: &Action) -> Reply {
        let answer: SecondAnswer = call!(self, action);
        Reply {
            answer: answer.number().into(),
            value: answer.value().into(),
        }
    }
}

/// Bulk as the interface has it: one word after the other, up to the first that is turned away,
/// which counts only where it is the first of all.
pub fn word_by_word(disk: &mut impl Single, action: &Action) -> Outcome {
    let mut room = match action {
        Action::ReadWords(length) => vec![UNTOUCHED; *length],
        _ => Vec::new(),
    };
    let reply = match action {
        Action::ReadWords(_) => count_words(room.chunks_exact_mut(2), |pair| {
            let reply = disk.single(&Action::ReadWord);
            if reply.answer == 0 {
                pair.copy_from_slice(&(reply.value as u16).to_le_bytes());
            }
            reply
        }),
        Action::WriteWords(bytes) => count_words(bytes.chunks_exact(2), |pair| {
            disk.single(&Action::WriteWord(u16::from_le_bytes([pair[0], pair[1]])))
        }),
        single => disk.single(single),
    };
    Outcome { reply, room }
}

fn count_words<T>(pairs: impl Iterator<Item = T>, mut pass: impl FnMut(T) -> Reply) -> Reply {
    let mut passed = 0;
    for pair in pairs {
        let reply = pass(pair);
        if reply.answer != 0 {
            if passed == 0 {
                return reply;
            }
            break;
        }
        passed += 1;
    }
    Reply {
        answer: 0,
        value: passed,
    }
}

/// The same on the library's own bulk calls.
pub fn on_lent(lent: &mut Lent, action: &Action) -> Outcome {
    let mut room = Vec::new();
    let reply = match action {
        Action::ReadWords(length) => {
            room.resize(*length, UNTOUCHED);
            lent.read_words(&mut room)
        }
        Action::WriteWords(bytes) => lent.write_words(bytes),
        single => lent.single(single),
    };
    Outcome { reply, room }
}

/// The same on the crate's device.
pub fn on_device(device: &mut Device, sectors: &mut [u8], action: &Action) -> Outcome {
    let mut room = Vec::new();
    let answer = match action {
        Action::ReadRegister(n) => device.read_register(sectors, *n).map(u32::from),
        Action::WriteRegister(n, v) => device.write_register(sectors, *n, *v).map(|()| 0),
        Action::ReadWord => device.read_word(sectors).map(u32::from),
        Action::WriteWord(w) => device.write_word(sectors, *w).map(|()| 0),
        Action::ReadWords(length) => {
            room.resize(*length, UNTOUCHED);
            device
                .read_words(sectors, &mut room)
                .map(|words| words as u32)
        }
        Action::WriteWords(bytes) => device.write_words(sectors, bytes).map(|words| words as u32),
        Action::HardwareReset => device.hardware_reset(sectors).map(|()| 0),
        Action::PowerOn => device.power_on(sectors).map(|()| 0),
        Action::Line => device.line(sectors).map(u32::from),
    };
    Outcome {
        reply: numbered(answer),
        room,
    }
}

fn numbered(answer: Answer<u32>) -> Reply {
    match answer {
        Ok(value) => Reply { answer: 0, value },
        Err(error) => Reply {
            answer: error.number().into(),
            value: 0,
        },
    }
}

//! Document 01, Replay: the records of a recording.

/// What the next bytes of a recording are.
pub(super) enum Next {
    Record { size: usize, action: Action },
    CutShort,
    Fault,
}

/// Document 01, Host actions: what a record asks for.
pub(super) enum Action {
    ReadRegister(u8),
    WriteRegister(u8, u8),
    ReadWord,
    WriteWord(u16),
    HardwareReset,
    PowerOn,
    Line,
}

/// The shortest record: a length of 1 and a kind.
pub(super) const SHORTEST: usize = 3;

/// Document 01, Replay: the kinds and their payloads; whatever can't become one of them is a fault.
#[inline(always)]
pub(super) fn next_record(bytes: &[u8]) -> Next {
    use Action::*;
    let (size, action) = match *bytes {
        [0, 2, 1, register, ..] => (4, ReadRegister(register)),
        [0, 3, 2, register, value, ..] => (5, WriteRegister(register, value)),
        [0, 1, 3, ..] => (3, ReadWord),
        [0, 3, 4, high, low, ..] => (5, WriteWord(u16::from_be_bytes([high, low]))),
        [0, 1, 5, ..] => (3, HardwareReset),
        [0, 1, 6, ..] => (3, PowerOn),
        [0, 1, 7, ..] => (3, Line),
        [] | [_] | [0, 1..=3] | [0, 2, 1] | [0, 3, 2 | 4] | [0, 3, 2 | 4, _] => {
            return Next::CutShort
        }
        _ => return Next::Fault,
    };
    Next::Record { size, action }
}

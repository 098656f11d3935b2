//! Document 01, Replay: a recording in, a reply out.

mod record;
mod reply;

use crate::device::{Answer, Device};
use crate::identify::Identity;
use record::{next_record, Action, Next};
use reply::Replies;
use std::io::{self, ErrorKind, Read, Write};

/// Document 01, Replay: "version byte 01h", of recording and reply alike.
const VERSION: u8 = 0x01;

/// The bytes of a recording held at a time.
const CHUNK: usize = 64 * 1024;

/// Document 01, Replay: replays a recording; the replies to each part read are written before more is
/// read, and nothing is read after the first fault.
pub fn replay(mut input: impl Read, mut output: impl Write) -> io::Result<()> {
    let mut session = Session::new();
    let mut chunk = vec![0; CHUNK];
    let mut kept = 0;
    loop {
        let got = match input.read(&mut chunk[kept..]) {
            Err(error) if error.kind() == ErrorKind::Interrupted => continue,
            result => result?,
        };
        let bytes = &chunk[..kept + got];
        let progress = if got == 0 {
            session.end(bytes)
        } else {
            session.advance(bytes)
        };
        output.write_all(session.replies.written())?;
        output.flush()?;
        session.replies.clear();
        let Progress::Wants { rest } = progress else {
            return Ok(());
        };
        let end = kept + got;
        chunk.copy_within(end - rest..end, 0);
        kept = rest;
    }
}

/// How a session stands after some bytes.
enum Progress {
    /// More is wanted; so many last bytes are a record cut short as yet.
    Wants { rest: usize },
    /// The recording has ended or is at fault.
    Over,
}

/// The device and its replies not yet written.
struct Session {
    device: Device,
    replies: Replies,
    started: bool,
}

impl Session {
    /// Document 01, Replay: "4 x 2 x 8, spaces for identity, zero master password, zero sectors".
    fn new() -> Session {
        Session {
            device: Device::setup(4, 2, 8, &Identity::SPACES, [0; 32])
                .expect("the replay device is within the limits"),
            replies: Replies::new(),
            started: false,
        }
    }

    /// Document 01, Replay: "version byte 01h, then records"; runs every whole record of some bytes.
    fn advance(&mut self, bytes: &[u8]) -> Progress {
        if self.started {
            return run_records(&mut self.device, &mut self.replies, bytes);
        }
        self.started = true;
        self.replies.version();
        match bytes {
            [VERSION, records @ ..] => self.advance(records),
            _ => self.replies.fault(),
        }
    }

    /// Document 01, Replay: the recording ends here; "empty input" and "a record cut short" are faults.
    fn end(&mut self, rest: &[u8]) -> Progress {
        if !self.started {
            return self.advance(rest);
        }
        if rest.is_empty() {
            return Progress::Over;
        }
        self.replies.fault()
    }
}

/// Document 01, Replay: runs records until one is not whole or at fault.
#[inline(never)]
fn run_records(device: &mut Device, replies: &mut Replies, mut rest: &[u8]) -> Progress {
    loop {
        // With eight bytes at hand no record is cut short, which need not be asked each time.
        let next = match rest.first_chunk::<8>() {
            Some(head) => next_record(head),
            None => next_record(rest),
        };
        match next {
            Next::Record { size, action } => {
                replies.answer(run(device, action));
                rest = &rest[size..];
            }
            Next::CutShort => return Progress::Wants { rest: rest.len() },
            Next::Fault => return replies.fault(),
        }
    }
}

/// Document 01, Host actions: runs one.
#[inline(always)]
fn run(device: &mut Device, action: Action) -> Answer {
    match action {
        Action::ReadRegister(register) => device.read_register(register),
        Action::WriteRegister(register, value) => device.write_register(register, value),
        Action::ReadWord => device.read_word(),
        Action::WriteWord(word) => device.write_word(word),
        Action::HardwareReset => device.hardware_reset(),
        Action::PowerOn => device.power_on(),
        Action::Line => device.line(),
    }
}

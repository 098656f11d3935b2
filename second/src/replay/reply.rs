//! Document 01, Replay: the reply to a recording.

use super::record::SHORTEST;
use super::{Progress, CHUNK, VERSION};
use crate::device::Answer;

/// A reply's bytes: length 0003h, answer, two-byte value.
const REPLY: usize = 5;

/// The reply bytes one chunk may ask for: the version, a reply to each record, and as much as one
/// store may reach beyond its reply.
const ROOM: usize = 1 + (CHUNK / SHORTEST + 1) * REPLY + 8;

/// Document 01, Replay: the reply, gathered for one chunk of the recording.
pub(super) struct Replies {
    bytes: Box<[u8; ROOM]>,
    len: u32,
}

impl Replies {
    /// No replies as yet.
    pub(super) fn new() -> Replies {
        Replies {
            bytes: Box::new([0; ROOM]),
            len: 0,
        }
    }

    /// The bytes to be written out.
    pub(super) fn written(&self) -> &[u8] {
        &self.bytes[..self.len as usize]
    }

    /// Makes room again once they are written.
    pub(super) fn clear(&mut self) {
        self.len = 0;
    }

    /// The next N bytes to fill.
    #[inline(always)]
    fn room<const N: usize>(&mut self) -> &mut [u8; N] {
        let len = self.len as usize;
        let room = &mut self.bytes[len..len + N];
        room.try_into().expect("N bytes")
    }

    /// Document 01, Replay: "Reply: 01h, then".
    pub(super) fn version(&mut self) {
        *self.room() = [VERSION];
        self.len += 1;
    }

    /// Document 01, Replay: "length 0003h, answer, two-byte value"; stored as eight bytes at once,
    /// the last three of which the next reply overwrites.
    #[inline(always)]
    pub(super) fn answer(&mut self, answer: Answer) {
        let (number, value) = (u64::from(answer.number()), u64::from(answer.value()));
        *self.room() = (0x0003 << 48 | number << 40 | value << 24).to_be_bytes();
        self.len += REPLY as u32;
    }

    /// Document 01, Replay: the first fault "adds 00 01 05 (length 1, answer 5) and ends".
    pub(super) fn fault(&mut self) -> Progress {
        *self.room() = [0, 1, Answer::Malformed.number()];
        self.len += 3;
        Progress::Over
    }
}

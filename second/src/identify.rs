//! Document 01, IDENTIFY words.

use crate::geometry::{Geometry, Translation};
use crate::{Block, ZERO_BLOCK};

/// Document 01, The disk: serial (20 bytes), firmware (8) and model (40).
#[derive(Clone, Debug, PartialEq, Eq)]
pub struct Identity {
    pub serial: [u8; 20],
    pub firmware: [u8; 8],
    pub model: [u8; 40],
}

impl Identity {
    /// Document 01, Replay: "spaces for identity".
    pub const SPACES: Identity = Identity {
        serial: [b' '; 20],
        firmware: [b' '; 8],
        model: [b' '; 40],
    };

    /// Document 01, The disk: "each byte 20h to 7Eh".
    pub fn within_limits(&self) -> bool {
        let texts: [&[u8]; 3] = [&self.serial, &self.firmware, &self.model];
        let printable = 0x20..=0x7E;
        texts.concat().iter().all(|byte| printable.contains(byte))
    }
}

/// Document 01, IDENTIFY words: those that setup fixes for good, the others 0.
pub fn fixed_words(geometry: &Geometry, identity: &Identity) -> Block {
    let mut block = ZERO_BLOCK;
    set(&mut block, 0, 0x0040);
    set(&mut block, 1, geometry.cylinders);
    set(&mut block, 3, geometry.heads);
    set(&mut block, 6, geometry.sectors);
    set_text(&mut block, 10, &identity.serial);
    set_text(&mut block, 23, &identity.firmware);
    set_text(&mut block, 27, &identity.model);
    set(&mut block, 49, 0x0200);
    set(&mut block, 53, 0x0001);
    set_long(&mut block, 60, geometry.capacity());
    set(&mut block, 80, 0x000E);
    set(&mut block, 82, 0x0002);
    set(&mut block, 83, 0x4000);
    block
}

/// Document 01, IDENTIFY words 54-58 and 128: those that follow the translation and the lock.
pub fn set_current_words(block: &mut Block, translation: &Translation, security: u16) {
    set(block, 54, translation.cylinders);
    set(block, 55, translation.heads);
    set(block, 56, translation.sectors);
    set_long(block, 57, translation.total());
    set(block, 128, u32::from(security));
}

/// Document 01, IDENTIFY words: one word.
fn set(block: &mut Block, place: usize, value: u32) {
    block[place] = value as u16;
}

/// Document 01, IDENTIFY words 57-58 and 60-61: a long number, "low word first".
fn set_long(block: &mut Block, place: usize, value: u32) {
    set(block, place, value);
    set(block, place + 1, value >> 16);
}

/// Document 01, IDENTIFY words 10-46: "first character in the high byte".
fn set_text(block: &mut Block, place: usize, text: &[u8]) {
    for (word, pair) in block[place..].iter_mut().zip(text.as_chunks().0) {
        *word = u16::from_be_bytes(*pair);
    }
}

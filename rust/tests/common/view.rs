//! A state's bytes by name, from the table in docs/EMBEDDING.md.

use std::ops::Range;
use thinnarom::lent::STATE_BYTES;

pub type State = [u8; STATE_BYTES];

pub const ERROR: usize = 0;
pub const COUNT: usize = 2;
pub const DEVICE_HEAD: usize = 6;
pub const HELD: usize = 7;
pub const MASKED: usize = 8;
pub const RAISED: usize = 9;
pub const FAILED: usize = 10;
pub const KIND: usize = 11;
pub const CURRENT: Range<usize> = 12..16;
pub const AFTER: usize = 16;
pub const PLACE: usize = 17;
pub const GEOMETRY: Range<usize> = 18..22;
pub const TRANSLATION: Range<usize> = 22..26;
pub const LOCK: usize = 26;
pub const ENABLED: usize = 27;
pub const MAXIMUM: usize = 28;
pub const ATTEMPTS: usize = 29;
pub const PREPARED: usize = 30;
pub const IDENTITY: Range<usize> = 31..99;
pub const USER: Range<usize> = 99..131;
pub const MASTER: Range<usize> = 131..163;

/// What stands at [`KIND`].
pub const KINDS: [&str; 9] = [
    "no transfer",
    "sectors read",
    "sectors written",
    "buffer read",
    "buffer written",
    "SET PASSWORD",
    "UNLOCK",
    "ERASE UNIT",
    "DISABLE PASSWORD",
];
pub const IDLE: u8 = 0;
pub const SECTORS_READ: u8 = 1;
pub const SECTORS_WRITTEN: u8 = 2;
pub const BUFFER_READ: u8 = 3;
pub const SET: u8 = 5;
pub const UNLOCK: u8 = 6;
pub const ERASE: u8 = 7;
pub const DISABLE: u8 = 8;

/// What stands at [`LOCK`].
pub const LOCKS: [&str; 3] = ["open", "locked", "frozen"];
pub const OPEN: u8 = 0;
pub const LOCKED: u8 = 1;
pub const FROZEN: u8 = 2;

pub const DEV: u8 = 0x10;
pub const LBA: u8 = 0x40;

/// Cylinders, heads, sectors per track.
#[derive(Clone, Copy, Debug, PartialEq, Eq)]
pub struct Counts {
    pub cylinders: u32,
    pub heads: u32,
    pub sectors: u32,
}

impl Counts {
    pub fn of(state: &State, place: Range<usize>) -> Counts {
        let [low, high, heads, sectors] = state[place].try_into().unwrap();
        Counts {
            cylinders: u32::from(u16::from_le_bytes([low, high])),
            heads: u32::from(heads),
            sectors: u32::from(sectors),
        }
    }

    pub fn product(self) -> u32 {
        self.cylinders * self.heads * self.sectors
    }

    pub fn put(self, state: &mut State, place: Range<usize>) {
        let [low, high] = (self.cylinders as u16).to_le_bytes();
        state[place].copy_from_slice(&[low, high, self.heads as u8, self.sectors as u8]);
    }
}

/// Registers 3 to 6 of a sector by its number, in LBA.
pub fn by_lba(number: u32) -> [u8; 4] {
    let [lowest, low, high, highest] = number.to_le_bytes();
    [lowest, low, high, LBA | highest & 0x0F]
}

/// The same in CHS.
pub fn by_chs(number: u32, of: Counts) -> [u8; 4] {
    let track = number / of.sectors;
    let [low, high] = ((track / of.heads) as u16).to_le_bytes();
    [
        (number % of.sectors + 1) as u8,
        low,
        high,
        (track % of.heads) as u8,
    ]
}

pub fn capacity(state: &State) -> usize {
    Counts::of(state, GEOMETRY).product() as usize
}

pub fn has_dev(state: &State) -> bool {
    state[DEVICE_HEAD] & DEV != 0
}

pub fn is_read(kind: u8) -> bool {
    kind == SECTORS_READ || kind == BUFFER_READ
}

pub fn is_written(kind: u8) -> bool {
    kind != IDLE && !is_read(kind)
}

//! A guest's end of the cable: what a driver does with registers and data words, on the disk that
//! its host lets it use.

use std::fmt::Debug;
use thinnarom::{Answer, Device, Register, SECTOR_BYTES};

/// What can end the story before its end: a call that was turned away, or an expectation that was
/// not met.
pub type Step<T = ()> = Result<T, Box<dyn std::error::Error>>;

pub const BLOCK_WORDS: usize = SECTOR_BYTES / 2;

pub const IDLE: u8 = 0x50;
pub const WORD_DUE: u8 = 0x58;
pub const FAILED: u8 = 0x51;

const SRST: u8 = 0x04;
const LBA: u8 = 0x40;

/// What the host has: the device, and the sectors that it lends to each call.
pub struct Disk {
    pub device: Device,
    pub sectors: Vec<u8>,
}

pub struct Guest<'a> {
    disk: &'a mut Disk,
    /// All that the disk has told this guest, so that two guests can be compared.
    pub heard: Vec<String>,
    /// How many data words it was given.
    pub words: usize,
    /// Those of them that are IDENTIFY DEVICE's, and zeros of READ BUFFER; the story counts them.
    pub identify_words: usize,
    pub zero_words: usize,
}

pub fn expect(met: bool, expectation: &str) -> Step {
    match met {
        true => Ok(()),
        false => Err(format!("not met: {expectation}").into()),
    }
}

impl Guest<'_> {
    pub fn on(disk: &mut Disk) -> Guest<'_> {
        let heard = Vec::new();
        Guest {
            disk,
            heard,
            words: 0,
            identify_words: 0,
            zero_words: 0,
        }
    }

    fn hear<T: Debug>(&mut self, told: T) -> T {
        self.heard.push(format!("{told:?}"));
        told
    }

    pub fn read(&mut self, register: Register) -> Answer<u8> {
        let told = self
            .disk
            .device
            .read_register(&mut self.disk.sectors, register);
        self.hear(told)
    }

    pub fn write(&mut self, register: Register, value: u8) -> Answer<()> {
        let told = self
            .disk
            .device
            .write_register(&mut self.disk.sectors, register, value);
        self.hear(told)
    }

    pub fn line(&mut self) -> Answer<bool> {
        let told = self.disk.device.line(&mut self.disk.sectors);
        self.hear(told)
    }

    pub fn read_word(&mut self) -> Answer<u16> {
        let told = self.disk.device.read_word(&mut self.disk.sectors);
        self.words += usize::from(told.is_ok());
        self.hear(told)
    }

    /// All the words that fit into `out`; how many have passed.
    pub fn read_words(&mut self, out: &mut [u8]) -> Answer<usize> {
        let told = self.disk.device.read_words(&mut self.disk.sectors, out);
        let passed = told.unwrap_or(0);
        self.words += passed;
        self.hear(out.iter().take(2 * passed).collect::<Vec<_>>());
        self.hear(told)
    }

    pub fn write_words(&mut self, bytes: &[u8]) -> Answer<usize> {
        let told = self.disk.device.write_words(&mut self.disk.sectors, bytes);
        self.hear(told)
    }

    /// Lays an LBA and a number of sectors into registers 2 to 6, and then gives the command.
    pub fn command_at(&mut self, code: u8, lba: u32, count: u8) -> Answer<()> {
        let [low, middle, high, highest] = lba.to_le_bytes();
        self.write(Register::SectorCount, count)?;
        self.write(Register::SectorNumber, low)?;
        self.write(Register::CylinderLow, middle)?;
        self.write(Register::CylinderHigh, high)?;
        self.write(Register::DeviceHead, LBA | highest & 0x0F)?;
        self.write(Register::Command, code)
    }

    /// Sets and clears the software reset; Status while it is held, and after it.
    pub fn software_reset(&mut self) -> Answer<[u8; 2]> {
        self.write(Register::DeviceControl, SRST)?;
        let held = self.read(Register::Status)?;
        self.write(Register::DeviceControl, 0)?;
        Ok([held, self.read(Register::Status)?])
    }
}

/// The block that security commands take, for the user's password at level High: word 0 is zero,
/// the password starts in word 1 and is filled up with zeros.
pub fn password_block(password: &str) -> [u8; SECTOR_BYTES] {
    let mut block = [0; SECTOR_BYTES];
    block[2..2 + password.len()].copy_from_slice(password.as_bytes());
    block
}

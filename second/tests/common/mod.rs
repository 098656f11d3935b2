//! A host at the cable: the actions of document 01 with names for what tests do over and over.
#![allow(dead_code)]

use second::{Answer, Device, Identity};

pub const ERROR: u8 = 1;
pub const FEATURES: u8 = 1;
pub const COUNT: u8 = 2;
pub const NUMBER: u8 = 3;
pub const CYLINDER_LOW: u8 = 4;
pub const CYLINDER_HIGH: u8 = 5;
pub const DEVICE_HEAD: u8 = 6;
pub const STATUS: u8 = 7;
pub const COMMAND: u8 = 7;
pub const ALTERNATE: u8 = 8;
pub const CONTROL: u8 = 8;

pub const READ: u8 = 0x20;
pub const WRITE: u8 = 0x30;
pub const VERIFY: u8 = 0x40;
pub const SEEK: u8 = 0x70;
pub const DIAGNOSTIC: u8 = 0x90;
pub const PARAMETERS: u8 = 0x91;
pub const READ_BUFFER: u8 = 0xE4;
pub const WRITE_BUFFER: u8 = 0xE8;
pub const IDENTIFY: u8 = 0xEC;
pub const SET_PASSWORD: u8 = 0xF1;
pub const UNLOCK: u8 = 0xF2;
pub const ERASE_PREPARE: u8 = 0xF3;
pub const ERASE_UNIT: u8 = 0xF4;
pub const FREEZE: u8 = 0xF5;
pub const DISABLE_PASSWORD: u8 = 0xF6;

pub const USER: u16 = 0x0000;
pub const MASTER: u16 = 0x0001;
pub const MAXIMUM: u16 = 0x0100;

pub const LBA: u8 = 0x40;
pub const DEV: u8 = 0x10;
pub const NIEN: u8 = 0x02;
pub const SRST: u8 = 0x04;

pub struct Host {
    pub device: Device,
}

/// The replay device: 4 x 2 x 8, spaces, zero master password, zero sectors.
pub fn host() -> Host {
    host_with(4, 2, 8)
}

pub fn host_with(cylinders: u32, heads: u32, sectors: u32) -> Host {
    let device = Device::setup(cylinders, heads, sectors, &Identity::SPACES, [0; 32]);
    Host {
        device: device.unwrap(),
    }
}

impl Host {
    pub fn write(&mut self, register: u8, value: u8) {
        assert_eq!(self.device.write_register(register, value), Answer::Done(0));
    }

    pub fn read(&mut self, register: u8) -> u8 {
        let Answer::Done(value) = self.device.read_register(register) else {
            panic!("register {register} turned away");
        };
        value.try_into().unwrap()
    }

    pub fn command(&mut self, code: u8) {
        self.write(COMMAND, code);
    }

    /// Alternate Status, which changes nothing.
    pub fn status(&mut self) -> u8 {
        self.read(ALTERNATE)
    }

    pub fn error(&mut self) -> u8 {
        self.read(ERROR)
    }

    pub fn line(&mut self) -> bool {
        self.device.line() == Answer::Done(1)
    }

    /// Whether the interrupt was raised; reading Status clears it.
    pub fn raised(&mut self) -> bool {
        let raised = self.line();
        self.read(STATUS);
        assert!(!self.line());
        raised
    }

    /// Registers 2 to 6.
    pub fn registers(&mut self) -> [u8; 5] {
        [COUNT, NUMBER, CYLINDER_LOW, CYLINDER_HIGH, DEVICE_HEAD].map(|r| self.read(r))
    }

    pub fn set_registers(&mut self, values: [u8; 5]) {
        for (register, value) in (COUNT..).zip(values) {
            self.write(register, value);
        }
    }

    pub fn lba(&mut self, count: u8, sector: u32) {
        let [high, middle, low, lowest] = sector.to_be_bytes();
        self.set_registers([count, lowest, low, middle, LBA | high]);
    }

    pub fn chs(&mut self, count: u8, cylinder: u16, head: u8, sector: u8) {
        let [high, low] = cylinder.to_be_bytes();
        self.set_registers([count, sector, low, high, head]);
    }

    pub fn word(&mut self) -> u16 {
        let Answer::Done(word) = self.device.read_word() else {
            panic!("no word due");
        };
        word
    }

    pub fn words(&mut self, count: usize) -> Vec<u16> {
        (0..count).map(|_| self.word()).collect()
    }

    pub fn put(&mut self, word: u16) {
        assert_eq!(self.device.write_word(word), Answer::Done(0));
    }

    pub fn put_all(&mut self, words: &[u16]) {
        words.iter().for_each(|word| self.put(*word));
    }

    pub fn no_transfer(&mut self) {
        assert_eq!(self.device.read_word(), Answer::NoTransfer);
        assert_eq!(self.device.write_word(0), Answer::NoTransfer);
    }

    pub fn identify(&mut self) -> Vec<u16> {
        self.command(IDENTIFY);
        self.words(256)
    }

    /// IDENTIFY word 128, without a change of lock, buffer apart.
    pub fn security(&mut self) -> u16 {
        self.identify()[128]
    }

    pub fn buffer(&mut self) -> Vec<u16> {
        self.command(READ_BUFFER);
        self.words(256)
    }

    pub fn write_sector(&mut self, sector: u32, fill: u16) {
        self.lba(1, sector);
        self.command(WRITE);
        self.put_all(&[fill; 256]);
        assert_eq!(self.status(), 0x50);
    }

    pub fn sector(&mut self, sector: u32) -> Vec<u16> {
        self.lba(1, sector);
        self.command(READ);
        self.words(256)
    }

    /// The bytes of a sector in the sector memory.
    pub fn stored(&self, sector: usize) -> &[u8] {
        &self.device.memory()[512 * sector..][..512]
    }

    /// A whole password command: word 0 and a password made of one byte.
    pub fn password(&mut self, command: u8, word_0: u16, fill: u8) {
        self.command(command);
        assert_eq!(self.status(), 0x58, "block wanted");
        self.put_all(&password_block(word_0, [fill; 32]));
    }

    pub fn ended_well(&mut self) {
        assert_eq!((self.status(), self.error()), (0x50, 0x00));
    }

    pub fn aborted(&mut self) {
        assert_eq!((self.status(), self.error()), (0x51, 0x04));
    }

    pub fn bad_address(&mut self) {
        assert_eq!((self.status(), self.error()), (0x51, 0x10));
    }

    pub fn software_reset(&mut self) {
        self.write(CONTROL, SRST);
        self.write(CONTROL, 0);
    }

    pub fn power_on(&mut self) {
        assert_eq!(self.device.power_on(), Answer::Done(0));
    }

    pub fn hardware_reset(&mut self) {
        assert_eq!(self.device.hardware_reset(), Answer::Done(0));
    }
}

/// A block for F1h, F2h, F4h and F6h.
pub fn password_block(word_0: u16, password: [u8; 32]) -> [u16; 256] {
    let mut block = [0; 256];
    block[0] = word_0;
    for (word, pair) in block[1..].iter_mut().zip(password.chunks(2)) {
        *word = u16::from_le_bytes([pair[0], pair[1]]);
    }
    block
}

/// A device with user password 55h x 32 and this level, locked.
pub fn locked(level: u16) -> Host {
    let mut host = host();
    host.password(SET_PASSWORD, USER | level, 0x55);
    host.power_on();
    host
}

//! Document 01, Registers: the values held, their start values and the meaning of their bits.

/// Where each value stands; but for Features, a place is the register's number.
pub const FEATURES: usize = 0;
pub const ERROR: usize = 1;
pub const SECTOR_COUNT: usize = 2;
pub const SECTOR_NUMBER: usize = 3;
pub const CYLINDER_LOW: usize = 4;
pub const CYLINDER_HIGH: usize = 5;
pub const DEVICE_HEAD: usize = 6;
pub const STATUS: usize = 7;

/// Document 01, Registers: the four values of Status.
pub const IDLE: u8 = 0x50;
pub const WORD_DUE: u8 = 0x58;
pub const FAILED: u8 = 0x51;
pub const RESET_HELD: u8 = 0x80;

/// Document 002: BSY and DRQ, the bits of Status that close registers 1 to 6 to the host.
const BSY: u8 = 0x80;
const DRQ: u8 = 0x08;

/// Document 01, Registers: Error after a reset and 90h, as a command begins, abort, bad address.
pub const START_ERROR: u8 = 0x01;
pub const NO_ERROR: u8 = 0x00;
pub const ABORTED: u8 = 0x04;
pub const BAD_ADDRESS: u8 = 0x10;

/// Document 01, Registers and Commands: the bits of Device/Head.
pub const DEV: u8 = 0x10;
pub const LBA: u8 = 0x40;
pub const HEAD: u8 = 0x0F;

/// Document 01, Registers: the bits of Device Control.
pub const NIEN: u8 = 0x02;
pub const SRST: u8 = 0x04;

/// The values held in registers 1 to 7; Status is held as it reads with DEV clear.
#[derive(Clone, Debug, PartialEq, Eq)]
pub struct Registers([u8; 8]);

impl Registers {
    /// Document 01, Registers: "Error 01h, Features 00h, Sector Count 01h, Sector Number 01h,
    /// cylinders and Device/Head 00h"; Status is 50h idle.
    pub const START: Registers = Registers([0x00, START_ERROR, 0x01, 0x01, 0, 0, 0x00, IDLE]);

    /// Document 01, Registers: "A read of 1 to 6 always gives the value held".
    #[inline]
    pub fn get(&self, place: usize) -> u8 {
        self.0[place & 7]
    }

    /// Sets one value; the device itself may always do so.
    #[inline]
    pub fn set(&mut self, place: usize, value: u8) {
        self.0[place & 7] = value;
    }

    /// Document 01, Registers: the host's write to 1 to 6, nothing in a transfer or a held reset.
    #[inline]
    pub fn write(&mut self, register: u8, value: u8) {
        let place = match usize::from(register) {
            ERROR => FEATURES,
            other => other,
        };
        if self.get(STATUS) & (BSY | DRQ) == 0 {
            self.set(place, value);
        }
    }

    /// Document 01, Registers: "With DEV (Device/Head bit 4) set".
    #[inline]
    pub fn dev(&self) -> bool {
        self.get(DEVICE_HEAD) & DEV != 0
    }

    /// Document 01, Commands: "LBA (Device/Head bit 6)".
    #[inline]
    pub fn lba(&self) -> bool {
        self.get(DEVICE_HEAD) & LBA != 0
    }

    /// Document 01, Commands: the head nibble, the low four bits of Device/Head.
    pub fn head(&self) -> u32 {
        u32::from(self.get(DEVICE_HEAD) & HEAD)
    }

    /// Document 01, Commands: a command always leaves the high nibble of 6 (90h apart).
    pub fn set_head(&mut self, head: u32) {
        let kept = self.get(DEVICE_HEAD) & !HEAD;
        self.set(DEVICE_HEAD, kept | (head as u8 & HEAD));
    }

    /// Cylinder High and Low as one number.
    pub fn cylinder(&self) -> u32 {
        u32::from(self.get(CYLINDER_HIGH)) << 8 | u32::from(self.get(CYLINDER_LOW))
    }

    /// Sets Cylinder High and Low from one number below 65,536.
    pub fn set_cylinder(&mut self, cylinder: u32) {
        self.set(CYLINDER_LOW, cylinder as u8);
        self.set(CYLINDER_HIGH, (cylinder >> 8) as u8);
    }

    /// Document 01, Commands: "Sector Count 0 is 256".
    pub fn sectors_asked(&self) -> u32 {
        match self.get(SECTOR_COUNT) {
            0 => 256,
            count => u32::from(count),
        }
    }

    /// Document 01, Commands: the sectors left, "256 shown as 00h".
    pub fn set_sectors_left(&mut self, left: u32) {
        self.set(SECTOR_COUNT, left as u8);
    }
}

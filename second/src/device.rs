//! Document 01, Host actions and when they are turned away; The disk and its three lives; Registers.

use crate::geometry::{Geometry, Translation};
use crate::identify::{fixed_words, Identity};
use crate::lock::{Lock, Password};
use crate::registers::{Registers, IDLE, NIEN, RESET_HELD, SRST, STATUS};
use crate::transfer::Transfer;
use crate::{Block, SECTOR, ZERO_BLOCK};

/// Document 01, Host actions: the answers. 2 and 3 have no case, since this device keeps its state
/// and its sector memory to itself and so can't be handed one out of shape or of wrong length.
#[derive(Clone, Copy, Debug, PartialEq, Eq)]
pub enum Answer {
    Done(u16),
    NoRegister,
    NoTransfer,
    Malformed,
    OutsideLimits,
}

impl Answer {
    /// Document 01, Host actions: the table's first column.
    #[inline]
    pub fn number(&self) -> u8 {
        match self {
            Answer::Done(_) => 0,
            Answer::NoRegister => 1,
            Answer::NoTransfer => 4,
            Answer::Malformed => 5,
            Answer::OutsideLimits => 6,
        }
    }

    /// Document 01, Host actions: the table's third column.
    #[inline]
    pub fn value(&self) -> u16 {
        match self {
            Answer::Done(value) => *value,
            _ => 0,
        }
    }
}

/// One disk with its sector memory.
#[derive(Clone, Debug)]
pub struct Device {
    pub(crate) geometry: Geometry,
    pub(crate) translation: Translation,
    pub(crate) registers: Registers,
    pub(crate) transfer: Transfer,
    /// The place of the next word in the block being passed.
    pub(crate) place: u8,
    /// The number of the sector being passed, and the sectors left including it.
    pub(crate) sector: u32,
    pub(crate) left: u32,
    pub(crate) interrupt: bool,
    /// nIEN as last written to Device Control.
    pub(crate) interrupt_disabled: bool,
    pub(crate) buffer: Block,
    pub(crate) lock: Lock,
    /// The IDENTIFY words that setup fixed.
    pub(crate) identify: Block,
    /// The sector memory, 512 x capacity bytes.
    pub(crate) memory: Vec<u8>,
}

impl Device {
    /// Document 01, The disk: setup, refused with answer 6 outside the limits; its sectors are zero.
    pub fn setup(
        cylinders: u32,
        heads: u32,
        sectors: u32,
        identity: &Identity,
        master: Password,
    ) -> Result<Device, Answer> {
        let geometry = Geometry::new(cylinders, heads, sectors);
        let geometry = geometry.ok_or(Answer::OutsideLimits)?;
        if !identity.within_limits() {
            return Err(Answer::OutsideLimits);
        }
        let mut device = Device {
            geometry,
            translation: geometry.factory_translation(),
            registers: Registers::START,
            transfer: Transfer::None,
            place: 0,
            sector: 0,
            left: 0,
            interrupt: false,
            interrupt_disabled: false,
            buffer: ZERO_BLOCK,
            lock: Lock::new(master),
            identify: fixed_words(&geometry, identity),
            memory: vec![0; SECTOR * geometry.capacity() as usize],
        };
        device.power_on();
        Ok(device)
    }

    /// Document 01, The disk: the sector memory.
    pub fn memory(&self) -> &[u8] {
        &self.memory
    }

    /// Document 01, The disk: power-on; passwords, level and sectors stay.
    pub fn power_on(&mut self) -> Answer {
        self.reset();
        self.interrupt_disabled = false;
        self.lock.power_on();
        Answer::Done(0)
    }

    /// Document 01, The disk: "Power-on and hardware reset" are one.
    pub fn hardware_reset(&mut self) -> Answer {
        self.power_on()
    }

    /// Document 01, Registers: what setting SRST does, and every reset; it touches neither lock
    /// state nor attempts.
    fn reset(&mut self) {
        self.registers = Registers::START;
        self.translation = self.geometry.factory_translation();
        self.transfer = Transfer::None;
        self.buffer = ZERO_BLOCK;
        self.interrupt = false;
        self.lock.end_preparation();
    }

    /// Document 01, Registers: 1 to 6 give the value held, 7 and 8 Status, 00h with DEV set.
    #[inline]
    pub fn read_register(&mut self, register: u8) -> Answer {
        let value = match register {
            7 | 8 => self.read_status(register == 7),
            1..=6 => self.registers.get(usize::from(register)),
            _ => return Answer::NoRegister,
        };
        Answer::Done(u16::from(value))
    }

    /// Document 01, Registers: "Reading 7 clears it, 8 does not"; with DEV set a read changes nothing.
    #[inline]
    fn read_status(&mut self, clears: bool) -> u8 {
        if self.registers.dev() {
            return 0x00;
        }
        self.interrupt &= !clears;
        self.registers.get(STATUS)
    }

    /// Document 01, Registers: Features and 2 to 6, Command, Device Control; an ignored write is done.
    #[inline]
    pub fn write_register(&mut self, register: u8, value: u8) -> Answer {
        match register {
            1..=6 => self.registers.write(register, value),
            7 => self.command(value),
            8 => self.write_device_control(value),
            _ => return Answer::NoRegister,
        }
        Answer::Done(0)
    }

    /// Document 01, Registers: nIEN is bit 1, SRST bit 2, the other bits nothing (reading 6).
    fn write_device_control(&mut self, value: u8) {
        self.interrupt_disabled = value & NIEN != 0;
        if value & SRST != 0 {
            self.reset();
            self.registers.set(STATUS, RESET_HELD);
        } else if self.reset_held() {
            self.registers.set(STATUS, IDLE);
        }
    }

    /// Document 01, Registers: Status is "80h while SRST is held".
    pub(crate) fn reset_held(&self) -> bool {
        self.registers.get(STATUS) == RESET_HELD
    }

    /// Document 01, Registers: "The line is 1 when raised and nIEN is 0".
    #[inline]
    pub fn line(&self) -> Answer {
        Answer::Done(u16::from(self.interrupt && !self.interrupt_disabled))
    }
}

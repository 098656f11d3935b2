//! What the guest remembers of the disk it drives, so that its next step makes sense.
//!
//! It steers the generator and counts intentions; it judges no reply.

use crate::lock_memory::LockMemory;
use crate::recording::Record;

pub const CAPACITY: u32 = 64;
pub const BLOCK_WORDS: u32 = 256;
pub const DEV: u8 = 0x10;
pub const LBA: u8 = 0x40;
pub const SRST: u8 = 0x04;

#[derive(Clone, Copy, Debug, PartialEq, Eq)]
pub struct Translation {
    pub cylinders: u32,
    pub heads: u32,
    pub sectors: u32,
}

pub const FACTORY: Translation = Translation {
    cylinders: 4,
    heads: 2,
    sectors: 8,
};

impl Translation {
    pub fn total(self) -> u32 {
        self.cylinders * self.heads * self.sectors
    }
}

pub struct Transfer {
    pub code: u8,
    pub to_host: bool,
    pub words_done: u32,
    pub words_left: u32,
    /// The sector the transfer starts at, and how many the command asked for.
    run: Option<(u32, u32)>,
    /// The first words of a password block.
    block: [u16; 17],
}

pub struct Memory {
    /// Registers 1 to 6 at their own numbers.
    pub registers: [u8; 7],
    pub translation: Translation,
    pub reset_held: bool,
    pub transfer: Option<Transfer>,
    pub lock: LockMemory,
    /// Commands run so far, by lock state (open, locked, frozen) and code.
    pub commands_run: [[u32; 256]; 3],
}

const START_VALUES: [u8; 7] = [0, 0, 1, 1, 0, 0, 0];

impl Memory {
    pub fn fresh() -> Memory {
        Memory {
            registers: START_VALUES,
            translation: FACTORY,
            reset_held: false,
            transfer: None,
            lock: LockMemory::fresh(),
            commands_run: [[0; 256]; 3],
        }
    }

    pub fn device_one_selected(&self) -> bool {
        self.registers[6] & DEV != 0
    }

    pub fn words_left(&self) -> u32 {
        self.transfer.as_ref().map_or(0, |open| open.words_left)
    }

    pub fn follow(&mut self, record: Record) {
        match record {
            Record::WriteRegister(8, value) => self.device_control(value),
            Record::WriteRegister(7, code) if !self.reset_held => self.command(code),
            Record::WriteRegister(register @ 1..=6, value)
                if !self.reset_held && self.transfer.is_none() =>
            {
                self.registers[usize::from(register)] = value;
            }
            Record::ReadWord => self.word(true, 0),
            Record::WriteWord(word) => self.word(false, word),
            Record::HardwareReset | Record::PowerOn => {
                self.soft_reset();
                self.reset_held = false;
                self.lock.reset();
            }
            _ => {}
        }
    }

    fn soft_reset(&mut self) {
        self.registers = START_VALUES;
        self.translation = FACTORY;
        self.transfer = None;
        self.lock.prepared = false;
    }

    fn device_control(&mut self, value: u8) {
        self.reset_held = value & SRST != 0;
        if self.reset_held {
            self.soft_reset();
        }
    }

    fn drop_transfer(&mut self) {
        if self.transfer.take().is_some_and(|open| open.code == 0xF4) {
            self.lock.prepared = false;
        }
    }

    fn command(&mut self, code: u8) {
        if self.device_one_selected() && code != 0x90 {
            return;
        }
        self.drop_transfer();
        self.commands_run[self.lock.state()][usize::from(code)] += 1;
        match code {
            0x20 | 0x21 | 0x30 | 0x31 | 0x40 | 0x41 => self.sector_command(code),
            0x10..=0x1F => self.recalibrate(),
            0x90 => self.registers = START_VALUES,
            0x91 => self.translate(),
            0xEC | 0xE4 => self.open(code, true, BLOCK_WORDS, None),
            0xE8 => self.open(code, false, BLOCK_WORDS, None),
            0xF3 => self.lock.prepared = true,
            0xF5 => self.lock.freeze(),
            0xF1 | 0xF2 | 0xF4 | 0xF6 if self.lock.takes_block(code) => {
                self.open(code, false, BLOCK_WORDS, None);
            }
            0xF4 => self.lock.prepared = false,
            _ => {}
        }
    }

    fn open(&mut self, code: u8, to_host: bool, words_left: u32, run: Option<(u32, u32)>) {
        self.transfer = Some(Transfer {
            code,
            to_host,
            words_done: 0,
            words_left,
            run,
            block: [0; 17],
        });
    }

    fn recalibrate(&mut self) {
        self.registers[3] = u8::from(self.registers[6] & LBA == 0);
        self.registers[4] = 0;
        self.registers[5] = 0;
        self.registers[6] &= 0xF0;
    }

    fn translate(&mut self) {
        let sectors = u32::from(self.registers[2]);
        let heads = u32::from(self.registers[6] & 0x0F) + 1;
        let cylinders = CAPACITY.checked_div(heads * sectors).unwrap_or(0);
        if cylinders > 0 {
            self.translation = Translation {
                cylinders,
                heads,
                sectors,
            };
        }
    }

    /// The sectors reachable by the addressing form now in Device/Head.
    fn end_of_disk(&self) -> u32 {
        if self.registers[6] & LBA != 0 {
            CAPACITY
        } else {
            self.translation.total()
        }
    }

    /// The sector that registers 3 to 6 name, if they name one.
    fn aimed_at(&self) -> Option<u32> {
        let [_, _, _, low, middle, high, top] = self.registers;
        let head = u32::from(top & 0x0F);
        let cylinder = u32::from(u16::from_le_bytes([middle, high]));
        if top & LBA != 0 {
            let sector = head << 24 | cylinder << 8 | u32::from(low);
            return (sector < CAPACITY).then_some(sector);
        }
        let shape = self.translation;
        let sector = u32::from(low);
        let good = (1..=shape.sectors).contains(&sector)
            && head < shape.heads
            && cylinder < shape.cylinders;
        good.then(|| (cylinder * shape.heads + head) * shape.sectors + sector - 1)
    }

    fn sector_command(&mut self, code: u8) {
        let wanted = match self.registers[2] {
            0 => 256,
            count => u32::from(count),
        };
        let Some(first) = self.aimed_at() else { return };
        if self.lock.locked {
            return;
        }
        let reachable = wanted.min(self.end_of_disk() - first);
        if code >= 0x40 {
            self.end_sectors(first, wanted, reachable);
        } else {
            let words = reachable * BLOCK_WORDS;
            self.open(code, code < 0x30, words, Some((first, wanted)));
        }
    }

    /// Registers 2 to 6 after a sector command: the last sector, or the bad address after it.
    fn end_sectors(&mut self, first: u32, wanted: u32, reachable: u32) {
        self.registers[2] = (wanted - reachable) as u8;
        let shown = if wanted == reachable {
            first + reachable - 1
        } else {
            first + reachable
        };
        let shape = self.translation;
        let (low, middle, head) = if self.registers[6] & LBA != 0 {
            (shown & 0xFF, shown >> 8 & 0xFFFF, shown >> 24)
        } else {
            let track = shown / shape.sectors;
            let sector = shown % shape.sectors + 1;
            (sector, track / shape.heads, track % shape.heads)
        };
        let [middle, high, ..] = middle.to_le_bytes();
        self.registers[3] = low as u8;
        self.registers[4] = middle;
        self.registers[5] = high;
        self.registers[6] = self.registers[6] & 0xF0 | head as u8;
    }

    fn word(&mut self, to_host: bool, word: u16) {
        let Some(open) = self.transfer.as_mut() else {
            return;
        };
        if open.to_host != to_host {
            return;
        }
        if let Some(place) = open.block.get_mut(open.words_done as usize) {
            *place = word;
        }
        open.words_done += 1;
        open.words_left -= 1;
        if open.words_left == 0 {
            self.end_transfer();
        }
    }

    fn end_transfer(&mut self) {
        let Some(ended) = self.transfer.take() else {
            return;
        };
        if let Some((first, wanted)) = ended.run {
            self.end_sectors(first, wanted, ended.words_done / BLOCK_WORDS);
        }
        if matches!(ended.code, 0xF1 | 0xF2 | 0xF4 | 0xF6) {
            self.lock.block_arrived(ended.code, &ended.block);
        }
    }
}

#[cfg(test)]
mod tests {
    use super::*;

    fn after(records: &[Record]) -> Memory {
        let mut memory = Memory::fresh();
        for record in records {
            memory.follow(*record);
        }
        memory
    }

    #[test]
    fn a_run_over_the_end_stops_at_the_last_sector() {
        let mut memory = after(&[
            Record::WriteRegister(2, 5),
            Record::WriteRegister(3, 62),
            Record::WriteRegister(6, LBA),
            Record::WriteRegister(7, 0x20),
        ]);
        assert_eq!(memory.words_left(), 512);
        (0..512).for_each(|_| memory.follow(Record::ReadWord));
        assert!(memory.transfer.is_none());
        assert_eq!(memory.registers[2..], [3, 64, 0, 0, LBA]);
    }

    #[test]
    fn a_user_password_locks_at_power_on() {
        let mut memory = after(&[Record::WriteRegister(7, 0xF1)]);
        (0..256).for_each(|_| memory.follow(Record::WriteWord(0x0100)));
        memory.follow(Record::PowerOn);
        assert!(memory.lock.locked && memory.lock.maximum);
        assert_eq!(memory.lock.user[..2], [0x00, 0x01]);
    }

    #[test]
    fn translation_follows_91h_and_reset() {
        let set = [
            Record::WriteRegister(2, 8),
            Record::WriteRegister(6, 0),
            Record::WriteRegister(7, 0x91),
        ];
        assert_eq!(after(&set).translation.cylinders, 8);
        let mut memory = after(&set);
        memory.follow(Record::WriteRegister(8, SRST));
        assert_eq!(memory.translation, FACTORY);
    }
}

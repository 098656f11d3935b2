//! The guest: it sends records, remembers what they did and looks around between them.

use crate::intentions::Intentions;
use crate::memory::{Memory, BLOCK_WORDS, DEV, SRST};
use crate::random::Random;
use crate::recording::Record;

#[derive(Clone, Copy)]
pub enum Data {
    Random,
    Marked,
    Same(u16),
}

pub struct Guest {
    pub random: Random,
    pub records: Vec<Record>,
    pub memory: Memory,
    pub intentions: Intentions,
    /// One word in this many is followed by an aside; 0 for none.
    pub words_per_aside: u32,
}

impl Guest {
    pub fn new(random: Random) -> Guest {
        Guest {
            random,
            records: Vec::new(),
            memory: Memory::fresh(),
            intentions: Intentions::default(),
            words_per_aside: 0,
        }
    }

    pub fn send(&mut self, record: Record) {
        self.memory.follow(record);
        self.records.push(record);
    }

    pub fn read(&mut self, register: u8) {
        self.send(Record::ReadRegister(register));
    }

    pub fn write(&mut self, register: u8, value: u8) {
        self.send(Record::WriteRegister(register, value));
    }

    pub fn command(&mut self, code: u8) {
        self.write(7, code);
    }

    pub fn hardware_or_power(&mut self) {
        let reset = self.random.pick(&[Record::HardwareReset, Record::PowerOn]);
        self.send(reset);
    }

    /// Any Device Control value that doesn't hold reset.
    pub fn device_control_without_reset(&mut self) {
        let value = match self.random.below(3) {
            0 => 0,
            1 => 2,
            _ => self.random.byte() & !SRST,
        };
        self.write(8, value);
    }

    pub fn pulse_software_reset(&mut self) {
        let value = self.random.byte() | SRST;
        self.write(8, value);
        if self.random.one_in(3) {
            self.poll();
        }
        self.device_control_without_reset();
    }

    /// Asks how things stand, in one of the ways a driver does.
    pub fn poll(&mut self) {
        match self.random.below(6) {
            0 => self.send(Record::AskLine),
            1 => self.read(8),
            2 => self.read(7),
            3 => [Record::AskLine, Record::ReadRegister(7), Record::AskLine]
                .map(|record| self.send(record))
                .iter()
                .for_each(drop),
            4 => {
                self.read(8);
                self.send(Record::AskLine);
            }
            _ => {
                self.read(8);
                self.read(7);
            }
        }
    }

    pub fn look_at_registers(&mut self) {
        for register in 1..=6 {
            self.read(register);
        }
        self.read(8);
        if self.random.one_in(2) {
            self.send(Record::AskLine);
            self.read(7);
            self.send(Record::AskLine);
        }
    }

    pub fn look_after_command(&mut self) {
        self.poll();
        match self.random.below(4) {
            0 => self.look_at_registers(),
            1 => [1, 2, 8]
                .map(|register| self.read(register))
                .iter()
                .for_each(drop),
            2 => self.aside(),
            _ => {}
        }
    }

    pub fn register_out_of_range(&mut self) -> u8 {
        match self.random.below(4) {
            0 => 0,
            1 => 9,
            2 => 255,
            _ => self.random.between(9, 255) as u8,
        }
    }

    /// A look or a pointless act that leaves the running script's plan standing.
    pub fn aside(&mut self) {
        match self.random.below(10) {
            0 => self.read(7),
            1 | 2 => self.read(8),
            3 => self.send(Record::AskLine),
            4 => {
                let register = self.random.between(1, 6) as u8;
                self.read(register);
            }
            5 => {
                let register = self.register_out_of_range();
                self.read(register);
            }
            6 => {
                let (register, value) = (self.register_out_of_range(), self.random.byte());
                self.write(register, value);
            }
            7 => self.word_that_is_not_due(),
            8 => self.write_that_is_ignored(),
            _ => self.device_control_unless_held(),
        }
    }

    /// During a transfer, writes to 1 to 6 must do nothing, DEV included.
    fn write_that_is_ignored(&mut self) {
        if self.memory.transfer.is_some() || self.memory.reset_held {
            let register = self.random.between(1, 6) as u8;
            let value = self.random.byte() | self.random.pick(&[0, DEV]);
            self.write(register, value);
        }
    }

    fn device_control_unless_held(&mut self) {
        if !self.memory.reset_held {
            self.device_control_without_reset();
        }
    }

    /// A data word against the transfer's direction, or either way where none is open.
    pub fn word_that_is_not_due(&mut self) {
        let to_host = match &self.memory.transfer {
            Some(open) => !open.to_host,
            None => self.random.one_in(2),
        };
        let word = self.random.word();
        self.send(match to_host {
            true => Record::ReadWord,
            false => Record::WriteWord(word),
        });
    }

    pub fn data(&mut self) -> Data {
        match self.random.below(6) {
            0 => Data::Same(self.random.pick(&[0, 0xFFFF, 0x00FF, 0xFF00])),
            1 | 2 => Data::Marked,
            _ => Data::Random,
        }
    }

    fn data_word(&mut self, data: Data, place: u32) -> u16 {
        match data {
            Data::Random => self.random.word(),
            Data::Marked => (place as u16).wrapping_mul(0x0101) ^ 0x5AA5,
            Data::Same(word) => word,
        }
    }

    /// Moves up to `words` words of the open transfer its own way, polling at each block.
    pub fn carry(&mut self, words: u32, data: Data) {
        for place in 0..words {
            let Some(open) = &self.memory.transfer else {
                return;
            };
            let (to_host, at_border) = (open.to_host, open.words_done % BLOCK_WORDS == 0);
            if at_border && !self.random.one_in(4) {
                self.poll();
            }
            let word = self.data_word(data, place);
            self.send(match to_host {
                true => Record::ReadWord,
                false => Record::WriteWord(word),
            });
            if self.words_per_aside > 0 && self.random.one_in(self.words_per_aside) {
                self.aside();
            }
        }
    }

    /// Sends given words as long as the open transfer takes them.
    pub fn carry_given(&mut self, words: &[u16]) {
        for word in words {
            if self.memory.transfer.is_none() {
                return;
            }
            self.send(Record::WriteWord(*word));
            if self.words_per_aside > 0 && self.random.one_in(self.words_per_aside) {
                self.aside();
            }
        }
    }

    pub fn carry_to_end(&mut self) {
        let data = self.data();
        self.carry(u32::MAX, data);
        if self.random.one_in(8) {
            self.word_that_is_not_due();
        }
        self.look_after_command();
    }

    /// Brings the cable back to where commands are heard, mostly.
    pub fn settle(&mut self) {
        if self.random.one_in(24) {
            return;
        }
        if self.memory.reset_held {
            self.device_control_without_reset();
        }
        if self.memory.transfer.is_some() {
            self.cut_open_transfer();
        }
        if self.memory.device_one_selected() {
            match self.random.one_in(3) {
                true => self.command(0x90),
                false => self.write(6, self.memory.registers[6] & !DEV),
            }
        }
    }

    /// Ends whatever transfer is open before its time, without choosing a new one.
    fn cut_open_transfer(&mut self) {
        match self.random.below(6) {
            0 => self.pulse_software_reset(),
            1 => self.hardware_or_power(),
            2 => self.command(0x90),
            3 => self.command(0x10),
            4 => self.command(0x00),
            _ => self.command(0x40),
        }
    }
}

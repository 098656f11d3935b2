//! Document 01, Commands: blocks pass through the buffer word by word, each end by its command's rule.

use crate::address::{end, show};
use crate::device::{Answer, Device};
use crate::registers::{BAD_ADDRESS, ERROR, FAILED, IDLE, STATUS, WORD_DUE};
use crate::{SECTOR, ZERO_BLOCK};

/// The transfer under way, named by its command.
#[derive(Clone, Copy, Debug, PartialEq, Eq)]
pub enum Transfer {
    None,
    ReadSectors,
    Identify,
    ReadBuffer,
    WriteSectors,
    WriteBuffer,
    SetPassword,
    Unlock,
    EraseUnit,
    DisablePassword,
}

impl Transfer {
    /// The device gives words: 20h, 21h, ECh, E4h.
    #[inline]
    fn reads(self) -> bool {
        use Transfer::*;
        matches!(self, ReadSectors | Identify | ReadBuffer)
    }

    /// The device takes words: 30h, 31h, E8h and the password blocks.
    #[inline]
    fn writes(self) -> bool {
        self != Transfer::None && !self.reads()
    }

    /// Document 01, The lock: F1h, F2h, F4h and F6h take a password block.
    fn takes_password(self) -> bool {
        use Transfer::*;
        matches!(self, SetPassword | Unlock | EraseUnit | DisablePassword)
    }
}

impl Device {
    /// Document 01, Host actions: one data word read; answer 4 with no transfer that way.
    #[inline]
    pub fn read_word(&mut self) -> Answer {
        if !self.transfer.reads() {
            return Answer::NoTransfer;
        }
        let word = self.buffer[usize::from(self.place)];
        self.pass_word();
        Answer::Done(word)
    }

    /// Document 01, Host actions: one data word written; answer 4 with no transfer that way. It is
    /// in the buffer "from its arrival on".
    #[inline]
    pub fn write_word(&mut self, word: u16) -> Answer {
        if !self.transfer.writes() {
            return Answer::NoTransfer;
        }
        self.buffer[usize::from(self.place)] = word;
        self.pass_word();
        Answer::Done(0)
    }

    /// Document 01, Commands: a word of the block has passed; at the 256th the block ends.
    #[inline]
    fn pass_word(&mut self) {
        self.place = self.place.wrapping_add(1);
        if self.place == 0 {
            self.end_block();
        }
    }

    /// Document 01, Registers: a transfer begins; the first block to be read raises, to be written not.
    pub(crate) fn begin(&mut self, transfer: Transfer) {
        self.transfer = transfer;
        self.place = 0;
        self.registers.set(STATUS, WORD_DUE);
        self.interrupt |= transfer.reads();
    }

    /// Document 01, Registers: a dropped transfer; the buffer is zeroed if it held a password, and
    /// the preparation ends if it was F4h's (readings 5 and 17).
    pub(crate) fn drop_transfer(&mut self) {
        if self.transfer.takes_password() {
            self.buffer = ZERO_BLOCK;
        }
        if self.transfer == Transfer::EraseUnit {
            self.lock.end_preparation();
        }
        self.transfer = Transfer::None;
    }

    /// Document 01, Commands and The lock: the 256th word of a block has passed.
    fn end_block(&mut self) {
        match self.transfer {
            Transfer::None => {}
            Transfer::ReadSectors => self.next_sector(),
            Transfer::Identify | Transfer::ReadBuffer => self.end_read_well(),
            Transfer::WriteSectors => {
                self.store_sector();
                self.next_sector();
            }
            Transfer::WriteBuffer => self.end_well(),
            password => self.end_password_block(password),
        }
    }

    /// Document 01, Commands: "Each sector is checked as it is reached", at the 256th word of the one
    /// before (reading 14); on success "count is 0 and the address is the last sector's".
    fn next_sector(&mut self) {
        self.left -= 1;
        if self.left == 0 {
            self.show_sectors_done();
            match self.transfer {
                Transfer::ReadSectors => self.end_read_well(),
                _ => self.end_well(),
            }
            return;
        }
        self.sector += 1;
        if self.sector == self.end_of_sectors() {
            self.fail_at_bad_sector();
        } else {
            self.ready_sector();
        }
    }

    /// Document 01, Registers: the interrupt is raised "when each block to be read is ready, when
    /// each block to be written after the first is wanted".
    fn ready_sector(&mut self) {
        if self.transfer == Transfer::ReadSectors {
            self.load_sector();
        }
        self.interrupt = true;
    }

    /// Document 01, Commands: "a block to be read whole once it is ready" is in the buffer.
    pub(crate) fn load_sector(&mut self) {
        let sector = &self.memory.as_chunks::<SECTOR>().0[self.sector as usize];
        for (word, pair) in self.buffer.iter_mut().zip(sector.as_chunks().0) {
            *word = u16::from_le_bytes(*pair);
        }
    }

    /// Document 01, Commands: "A write stores a sector only when its 256th word arrives".
    fn store_sector(&mut self) {
        let sector = &mut self.memory.as_chunks_mut::<SECTOR>().0[self.sector as usize];
        for (pair, word) in sector.as_chunks_mut().0.iter_mut().zip(&self.buffer) {
            *pair = word.to_le_bytes();
        }
    }

    /// Document 01, Commands: the number of the first bad sector in this way of addressing.
    pub(crate) fn end_of_sectors(&self) -> u32 {
        end(&self.registers, &self.translation, self.geometry.capacity())
    }

    /// Document 01, Commands: "On success count is 0 and the address is the last sector's".
    pub(crate) fn show_sectors_done(&mut self) {
        self.registers.set_sectors_left(0);
        show(&mut self.registers, &self.translation, self.sector);
    }

    /// Document 01, Commands: "Error 10h, Status 51h, the bad address, and the sectors left
    /// including it"; the bad sector is the current one.
    pub(crate) fn fail_at_bad_sector(&mut self) {
        self.registers.set_sectors_left(self.left);
        show(&mut self.registers, &self.translation, self.sector);
        self.fail(BAD_ADDRESS);
    }

    /// Document 01, The lock: a whole password block; "the buffer is zeroed however such a transfer
    /// ends".
    fn end_password_block(&mut self, transfer: Transfer) {
        let accepted = match transfer {
            Transfer::Unlock => self.lock.unlock(&self.buffer),
            Transfer::EraseUnit => self.end_erase_unit(),
            Transfer::DisablePassword => self.lock.switch_off(&self.buffer),
            _ => {
                self.lock.set_password(&self.buffer);
                true
            }
        };
        self.buffer = ZERO_BLOCK;
        if accepted {
            self.end_well();
        } else {
            self.abort();
        }
    }

    /// Document 01, The lock: F4h "accepted: all sectors zero"; its end ends the preparation.
    fn end_erase_unit(&mut self) -> bool {
        self.lock.end_preparation();
        let accepted = self.lock.switch_off(&self.buffer);
        if accepted {
            self.memory.fill(0);
        }
        accepted
    }

    /// Document 01, Registers: the interrupt is raised "when a command ends, well or not".
    pub(crate) fn end_well(&mut self) {
        self.end_read_well();
        self.interrupt = true;
    }

    /// Document 01, Registers: "the last word of a read that ends well raises nothing", and clears
    /// nothing (reading 12).
    fn end_read_well(&mut self) {
        self.transfer = Transfer::None;
        self.registers.set(STATUS, IDLE);
    }

    /// Document 01, Registers and Commands: a command that ends with an error, Status 51h.
    pub(crate) fn fail(&mut self, error: u8) {
        self.transfer = Transfer::None;
        self.registers.set(ERROR, error);
        self.registers.set(STATUS, FAILED);
        self.interrupt = true;
    }
}

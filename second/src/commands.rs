//! Document 01, Commands: what a Command write runs.

use crate::address::Address;
use crate::device::Device;
use crate::geometry::Translation;
use crate::identify::set_current_words;
use crate::registers::{
    Registers, ABORTED, BAD_ADDRESS, ERROR, NO_ERROR, SECTOR_COUNT, SECTOR_NUMBER,
};
use crate::transfer::Transfer;

/// Document 01, Commands: the codes that are spoken of alone.
const EXECUTE_DIAGNOSTIC: u8 = 0x90;
const ERASE_UNIT: u8 = 0xF4;

impl Device {
    /// Document 01, Registers: a Command write; nothing while reset is held, nor with DEV set but for
    /// 90h; it "first drops the transfer", then "clears Error and the interrupt" and runs.
    pub(crate) fn command(&mut self, code: u8) {
        if self.reset_held() || (self.registers.dev() && code != EXECUTE_DIAGNOSTIC) {
            return;
        }
        self.drop_transfer();
        self.registers.set(ERROR, NO_ERROR);
        self.interrupt = false;
        if self.lock.refuses(code) {
            self.abort_at_once(code);
        } else {
            self.run(code);
        }
    }

    /// Document 01, Commands: one line for each command; "All others, 00h included, abort".
    fn run(&mut self, code: u8) {
        match code {
            0x10..=0x1F => self.recalibrate(),
            0x20 | 0x21 => self.read_sectors(),
            0x30 | 0x31 => self.write_sectors(),
            0x40 | 0x41 => self.verify_sectors(),
            0x70..=0x7F => self.seek(),
            EXECUTE_DIAGNOSTIC => self.execute_diagnostic(),
            0x91 => self.initialize_parameters(),
            0xE4 => self.begin(Transfer::ReadBuffer),
            0xE8 => self.begin(Transfer::WriteBuffer),
            0xEC => self.identify(),
            0xF1 => self.begin(Transfer::SetPassword),
            0xF2 => self.begin(Transfer::Unlock),
            0xF3 => self.erase_prepare(),
            ERASE_UNIT => self.begin(Transfer::EraseUnit),
            0xF5 => self.freeze_lock(),
            0xF6 => self.begin(Transfer::DisablePassword),
            _ => self.abort(),
        }
    }

    /// Document 01, Registers: "Abort: Error 04h, Status 51h, registers 2 to 6 kept".
    pub(crate) fn abort(&mut self) {
        self.fail(ABORTED);
    }

    /// Document 01, The lock: a command aborted before any block; the buffer stays (reading 18), and
    /// any abort of F4h ends the preparation (reading 23).
    fn abort_at_once(&mut self, code: u8) {
        if code == ERASE_UNIT {
            self.lock.end_preparation();
        }
        self.abort();
    }

    /// Document 01, Commands: what the address in the registers names.
    fn address(&self) -> Address {
        Address::named(&self.registers, &self.translation, self.geometry.capacity())
    }

    /// Document 01, Commands: the first sector of 20h to 41h. "A bad address ends the command, before
    /// any word where it is the first": the registers show it already, with all sectors left.
    fn reach_first_sector(&mut self) -> bool {
        let Address::Sector(sector) = self.address() else {
            self.fail(BAD_ADDRESS);
            return false;
        };
        self.sector = sector;
        self.left = self.registers.sectors_asked();
        true
    }

    /// Document 01, Commands: 20h/21h read.
    fn read_sectors(&mut self) {
        if self.reach_first_sector() {
            self.load_sector();
            self.begin(Transfer::ReadSectors);
        }
    }

    /// Document 01, Commands: 30h/31h write.
    fn write_sectors(&mut self) {
        if self.reach_first_sector() {
            self.begin(Transfer::WriteSectors);
        }
    }

    /// Document 01, Commands: 40h/41h verify, all sectors at once; the buffer stays (reading 16).
    fn verify_sectors(&mut self) {
        if !self.reach_first_sector() {
            return;
        }
        let good = self.end_of_sectors() - self.sector;
        if self.left <= good {
            self.sector += self.left - 1;
            self.show_sectors_done();
            self.end_well();
        } else {
            self.sector += good;
            self.left -= good;
            self.fail_at_bad_sector();
        }
    }

    /// Document 01, Commands: 70h to 7Fh, "address good, or Error 10h, registers 2 to 6 kept".
    fn seek(&mut self) {
        let Address::Sector(_) = self.address() else {
            self.fail(BAD_ADDRESS);
            return;
        };
        self.end_well();
    }

    /// Document 01, Commands: 10h to 1Fh, "cylinders and head nibble 0, Sector Number 1 in CHS, 0 in
    /// LBA".
    fn recalibrate(&mut self) {
        let first = u8::from(!self.registers.lba());
        self.registers.set(SECTOR_NUMBER, first);
        self.registers.set_cylinder(0);
        self.registers.set_head(0);
        self.end_well();
    }

    /// Document 01, Commands: 91h; refused, it leaves the old translation (reading 19).
    fn initialize_parameters(&mut self) {
        let heads = self.registers.head() + 1;
        let sectors = u32::from(self.registers.get(SECTOR_COUNT));
        let Some(translation) = Translation::new(self.geometry.capacity(), heads, sectors) else {
            self.abort();
            return;
        };
        self.translation = translation;
        self.end_well();
    }

    /// Document 01, Commands: 90h, "start values in registers 1 to 6, DEV thus clear; translation,
    /// buffer, preparation and lock stay".
    fn execute_diagnostic(&mut self) {
        self.registers = Registers::START;
        self.end_well();
    }

    /// Document 01, Commands: ECh fills the buffer at the Command write (reading 16).
    fn identify(&mut self) {
        self.buffer = self.identify;
        let security = self.lock.identify_word();
        set_current_words(&mut self.buffer, &self.translation, security);
        self.begin(Transfer::Identify);
    }

    /// Document 01, The lock: "F3h prepares".
    fn erase_prepare(&mut self) {
        self.lock.prepare();
        self.end_well();
    }

    /// Document 01, The lock: "F5h freezes"; while frozen it ends well too (reading 26).
    fn freeze_lock(&mut self) {
        self.lock.freeze();
        self.end_well();
    }
}

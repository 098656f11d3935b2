//! Reading records and replies side by side to see which states a session reached.

use crate::coverage::{Coverage, Heading};
use crate::memory::{BLOCK_WORDS, SRST};
use crate::recording::{answer_at, Record};
use std::collections::BTreeSet;

/// Every class the watcher can see, by heading.
pub const CLASSES: &[(Heading, &[&str])] = &[
    (Heading::Commands, &COMMAND_GROUPS),
    (Heading::Status, &["00h", "50h", "51h", "58h", "80h"]),
    (Heading::Errors, &["00h", "01h", "04h", "10h"]),
    (Heading::Answers, &["0", "1", "4"]),
    (Heading::TransfersCompleted, &COMPLETIONS),
    (Heading::TransfersCut, &CUTS),
    (Heading::CutPlaces, &CUT_PLACES),
    (Heading::PasswordBlocks, &BLOCK_ENDS),
    (Heading::SessionsReaching, &STATES),
];

const COMMAND_GROUPS: [&str; 19] = [
    "20h/21h", "30h/31h", "40h/41h", "70h-7Fh", "10h-1Fh", "90h", "91h", "ECh", "E4h", "E8h",
    "F1h", "F2h", "F3h", "F4h", "F5h", "F6h", "00h", "BAh-BFh", "others",
];
const COMPLETIONS: [&str; 7] = [
    "read well",
    "read into a bad address",
    "write well",
    "write into a bad address",
    "identify",
    "read buffer",
    "write buffer",
];
const CUTS: [&str; 8] = [
    "sectors by Command",
    "sectors by SRST",
    "sectors by hardware reset",
    "sectors by power-on",
    "one block by Command",
    "one block by SRST",
    "one block by hardware reset",
    "one block by power-on",
];
const CUT_PLACES: [&str; 7] = ["0", "1", "17", "254", "255", "others", "in a later block"];
const BLOCK_ENDS: [&str; 7] = [
    "F1h accepted",
    "F2h accepted",
    "F2h refused",
    "F4h accepted",
    "F4h refused",
    "F6h accepted",
    "F6h refused",
];
const STATES: [&str; 13] = [
    "open",
    "enabled",
    "locked",
    "locked at Maximum",
    "unlocked",
    "frozen",
    "frozen while enabled",
    "no attempts left",
    "erased",
    "erased while locked",
    "DEV set",
    "reset held",
    "line raised",
];

fn command_group(code: u8) -> &'static str {
    COMMAND_GROUPS[match code {
        0x20 | 0x21 => 0,
        0x30 | 0x31 => 1,
        0x40 | 0x41 => 2,
        0x70..=0x7F => 3,
        0x10..=0x1F => 4,
        0x90 => 5,
        0x91 => 6,
        0xEC => 7,
        0xE4 => 8,
        0xE8 => 9,
        0xF1..=0xF6 => usize::from(code - 0xF1) + 10,
        0x00 => 16,
        0xBA..=0xBF => 17,
        _ => 18,
    }]
}

pub struct Watcher<'coverage> {
    coverage: &'coverage mut Coverage,
    reached: BTreeSet<&'static str>,
    code: u8,
    open: bool,
    to_host: bool,
    words: u32,
    /// Status said 58h after the last word, so the transfer is surely open.
    ready_seen: bool,
    locked_seen: bool,
}

impl Watcher<'_> {
    pub fn new(coverage: &mut Coverage) -> Watcher<'_> {
        Watcher {
            coverage,
            reached: BTreeSet::new(),
            code: 0,
            open: false,
            to_host: false,
            words: 0,
            ready_seen: false,
            locked_seen: false,
        }
    }

    pub fn watch_session(&mut self, records: &[Record], reply: &[u8]) {
        for (index, record) in records.iter().enumerate() {
            let [0, 3, number, high, low] = *answer_at(reply, index) else {
                break;
            };
            self.watch(*record, number, u16::from_be_bytes([high, low]));
        }
        for state in std::mem::take(&mut self.reached) {
            self.coverage.count(Heading::SessionsReaching, state, 1);
        }
    }

    fn count(&mut self, heading: Heading, name: &'static str) {
        self.coverage.count(heading, name, 1);
    }

    fn watch(&mut self, record: Record, number: u8, value: u16) {
        match number {
            0 => self.count(Heading::Answers, "0"),
            1 => self.count(Heading::Answers, "1"),
            _ => self.count(Heading::Answers, "4"),
        }
        match record {
            Record::WriteRegister(7, code) => self.command(code),
            Record::WriteRegister(8, value) if value & SRST != 0 => self.cut(1),
            Record::HardwareReset => self.reset(2),
            Record::PowerOn => self.reset(3),
            Record::ReadRegister(7 | 8) => self.status(value),
            Record::ReadRegister(1) => self.error(value),
            Record::ReadWord => self.word(true, number, value),
            Record::WriteWord(_) => self.word(false, number, value),
            Record::AskLine if value == 1 => drop(self.reached.insert("line raised")),
            _ => {}
        }
    }

    fn command(&mut self, code: u8) {
        self.count(Heading::Commands, command_group(code));
        self.cut(0);
        self.code = code;
        self.words = 0;
    }

    fn reset(&mut self, by: usize) {
        self.cut(by);
        self.locked_seen = false;
    }

    fn is_sector_transfer(&self) -> bool {
        matches!(self.code, 0x20 | 0x21 | 0x30 | 0x31)
    }

    /// Counts an interruption if words were surely still due.
    fn cut(&mut self, by: usize) {
        let place = self.words % BLOCK_WORDS;
        if self.open && (place != 0 || self.ready_seen) {
            let row = if self.is_sector_transfer() { 0 } else { 4 };
            self.count(Heading::TransfersCut, CUTS[row + by]);
            self.count(
                Heading::CutPlaces,
                match place {
                    0 => "0",
                    1 => "1",
                    17 => "17",
                    254 => "254",
                    255 => "255",
                    _ => "others",
                },
            );
            if self.words >= BLOCK_WORDS {
                self.count(Heading::CutPlaces, "in a later block");
            }
        }
        self.open = false;
        self.ready_seen = false;
    }

    fn error(&mut self, value: u16) {
        match value {
            0x00 => self.count(Heading::Errors, "00h"),
            0x01 => self.count(Heading::Errors, "01h"),
            0x04 => self.count(Heading::Errors, "04h"),
            0x10 => self.count(Heading::Errors, "10h"),
            _ => {}
        }
    }

    fn status(&mut self, value: u16) {
        match value {
            0x00 => {
                self.count(Heading::Status, "00h");
                self.reached.insert("DEV set");
            }
            0x80 => {
                self.count(Heading::Status, "80h");
                self.reached.insert("reset held");
            }
            0x58 => {
                self.count(Heading::Status, "58h");
                self.open = true;
                self.ready_seen = true;
            }
            0x50 => {
                self.count(Heading::Status, "50h");
                self.ended(true);
            }
            0x51 => {
                self.count(Heading::Status, "51h");
                self.ended(false);
            }
            _ => {}
        }
    }

    fn word(&mut self, to_host: bool, number: u8, value: u16) {
        if number != 0 {
            return;
        }
        self.open = true;
        self.ready_seen = false;
        self.to_host = to_host;
        self.words += 1;
        if self.code == 0xEC && self.words == 129 {
            self.lock_word(value);
        }
    }

    fn lock_word(&mut self, word: u16) {
        let locked = word & 4 != 0;
        let seen = [
            (word & 0xC == 0, "open"),
            (word & 2 != 0, "enabled"),
            (locked, "locked"),
            (locked && word & 0x100 != 0, "locked at Maximum"),
            (self.locked_seen && !locked && word & 2 != 0, "unlocked"),
            (word & 8 != 0, "frozen"),
            (word & 0xA == 0xA, "frozen while enabled"),
            (word & 0x10 != 0, "no attempts left"),
        ];
        for (holds, state) in seen {
            if holds {
                self.reached.insert(state);
            }
        }
        self.locked_seen |= locked;
    }

    /// Status says idle: if words had moved, this is the first sight of the end.
    fn ended(&mut self, well: bool) {
        if self.open && self.words > 0 {
            let completion = match (self.code, well) {
                (0x20 | 0x21, true) => "read well",
                (0x20 | 0x21, false) => "read into a bad address",
                (0x30 | 0x31, true) => "write well",
                (0x30 | 0x31, false) => "write into a bad address",
                (0xEC, _) => "identify",
                (0xE4, _) => "read buffer",
                (0xE8, _) => "write buffer",
                _ => "",
            };
            match completion {
                "" => self.password_block(well),
                name => self.count(Heading::TransfersCompleted, name),
            }
        }
        self.open = false;
        self.ready_seen = false;
    }

    fn password_block(&mut self, well: bool) {
        let end = match (self.code, well) {
            (0xF1, true) => "F1h accepted",
            (0xF2, true) => "F2h accepted",
            (0xF2, false) => "F2h refused",
            (0xF4, true) => "F4h accepted",
            (0xF4, false) => "F4h refused",
            (0xF6, true) => "F6h accepted",
            (0xF6, false) => "F6h refused",
            _ => return,
        };
        self.count(Heading::PasswordBlocks, end);
        if end == "F4h accepted" {
            self.reached.insert("erased");
            if self.locked_seen {
                self.reached.insert("erased while locked");
            }
        }
        // After either the lock is open; "locked" has to be seen anew.
        if matches!(end, "F4h accepted" | "F6h accepted") {
            self.locked_seen = false;
        }
    }
}

#[cfg(test)]
mod tests {
    use super::*;

    fn watch(steps: &[(Record, u8, u16)]) -> String {
        let mut coverage = Coverage::new();
        let records: Vec<Record> = steps.iter().map(|step| step.0).collect();
        let mut reply = vec![1];
        for (_, number, value) in steps {
            let [high, low] = value.to_be_bytes();
            reply.extend([0, 3, *number, high, low]);
        }
        Watcher::new(&mut coverage).watch_session(&records, &reply);
        coverage.table()
    }

    #[test]
    fn the_lock_word_tells_the_state() {
        let mut steps = vec![(Record::WriteRegister(7, 0xEC), 0, 0)];
        steps.extend([(Record::ReadWord, 0, 0); 128]);
        steps.push((Record::ReadWord, 0, 0x0107));
        let table = watch(&steps);
        assert!(table.contains(" locked at Maximum 1;"));
        assert!(table.contains(" frozen 0;"));
    }

    #[test]
    fn a_cut_is_counted_only_where_words_were_due() {
        let begun = [
            (Record::WriteRegister(7, 0x20), 0, 0),
            (Record::ReadRegister(7), 0, 0x58),
            (Record::HardwareReset, 0, 0),
        ];
        assert!(watch(&begun).contains("sectors by hardware reset 1;"));
        let never_begun = [
            (Record::WriteRegister(7, 0x20), 0, 0),
            (Record::HardwareReset, 0, 0),
        ];
        assert!(watch(&never_begun).contains("sectors by hardware reset 0;"));
    }
}

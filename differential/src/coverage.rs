//! Counting what a run has reached; a class never reached would be a test that can't fail.

use crate::recording::{ANSWER_BYTES, FAULT_ANSWER};
use crate::sessions::damage::ALL_DAMAGE;
use crate::sessions::guesses::ALL_GUESSES;
use crate::sessions::{Session, SCRIPTS};
use crate::watcher::{self, Watcher};
use std::collections::BTreeMap;

#[derive(Clone, Copy, Debug, PartialEq, Eq, PartialOrd, Ord)]
pub enum Heading {
    Commands,
    Status,
    Errors,
    Answers,
    TransfersCompleted,
    TransfersCut,
    CutPlaces,
    PasswordBlocks,
    Guesses,
    WrongBytes,
    SessionsReaching,
    Faults,
    Scripts,
}

impl Heading {
    fn title(self) -> &'static str {
        match self {
            Heading::Commands => "commands sent",
            Heading::Status => "status values read",
            Heading::Errors => "error values read",
            Heading::Answers => "answers",
            Heading::TransfersCompleted => "transfers completed",
            Heading::TransfersCut => "transfers cut, by what",
            Heading::CutPlaces => "transfers cut, at which word of the block",
            Heading::PasswordBlocks => "password blocks",
            Heading::Guesses => "password guesses meant",
            Heading::WrongBytes => "guesses wrong in one byte, by byte",
            Heading::SessionsReaching => "sessions reaching",
            Heading::Faults => "recordings ending in a fault",
            Heading::Scripts => "scripts run",
        }
    }
}

/// Tells byte 0 to byte 31 apart in the table.
const BYTE_NAMES: [&str; 32] = [
    "00", "01", "02", "03", "04", "05", "06", "07", "08", "09", "10", "11", "12", "13", "14", "15",
    "16", "17", "18", "19", "20", "21", "22", "23", "24", "25", "26", "27", "28", "29", "30", "31",
];

const LOCK_STATES: [&str; 3] = ["open", "locked", "frozen"];

pub struct Coverage {
    counts: BTreeMap<(Heading, &'static str), u64>,
    commands_run: [[u64; 256]; 3],
}

impl Coverage {
    /// Every class that a full run must reach, at zero.
    pub fn new() -> Coverage {
        let mut counts = BTreeMap::new();
        let mut expect = |heading: Heading, names: &[&'static str]| {
            for name in names {
                counts.insert((heading, *name), 0);
            }
        };
        for (heading, names) in watcher::CLASSES {
            expect(*heading, names);
        }
        expect(Heading::PasswordBlocks, &["right", "wrong"]);
        expect(Heading::Guesses, &ALL_GUESSES.map(|(_, name)| name));
        expect(Heading::WrongBytes, &BYTE_NAMES);
        expect(Heading::Faults, &ALL_DAMAGE.map(|damage| damage.name));
        for script in SCRIPTS {
            expect(Heading::Scripts, &[script.name]);
        }
        Coverage {
            counts,
            commands_run: [[0; 256]; 3],
        }
    }

    pub fn count(&mut self, heading: Heading, name: &'static str, times: u64) {
        *self.counts.entry((heading, name)).or_default() += times;
    }

    pub fn add_session(&mut self, session: &Session, reply: &[u8]) {
        Watcher::new(self).watch_session(&session.recording.records, reply);
        self.add_intentions(session);
        if let Some(name) = session.intentions.damage {
            if ends_in_fault(reply) {
                self.count(Heading::Faults, name, 1);
            }
        }
    }

    fn add_intentions(&mut self, session: &Session) {
        for (totals, counts) in self.commands_run.iter_mut().zip(&session.commands_run) {
            for (total, count) in totals.iter_mut().zip(counts) {
                *total += u64::from(*count);
            }
        }
        for (name, times) in &session.intentions.scripts {
            self.count(Heading::Scripts, name, *times);
        }
        for (name, times) in &session.intentions.guesses {
            self.count(Heading::Guesses, name, *times);
        }
        for (name, times) in BYTE_NAMES.iter().zip(session.intentions.wrong_bytes) {
            self.count(Heading::WrongBytes, name, times);
        }
        self.count(Heading::PasswordBlocks, "right", session.blocks_right);
        self.count(Heading::PasswordBlocks, "wrong", session.blocks_wrong);
    }

    /// The classes that were never reached, in words.
    pub fn missing(&self) -> Vec<String> {
        let never = self.counts.iter().filter(|(_, count)| **count == 0);
        let classes = never.map(|((heading, name), _)| format!("{}: {name}", heading.title()));
        classes.chain(self.commands_never_run()).collect()
    }

    /// Every code has to be met in every lock state.
    fn commands_never_run(&self) -> impl Iterator<Item = String> + '_ {
        let states = LOCK_STATES.iter().zip(&self.commands_run);
        states.flat_map(|(state, counts)| {
            let never = counts.iter().enumerate().filter(|(_, count)| **count == 0);
            never.map(move |(code, _)| format!("command {code:02X}h while {state}"))
        })
    }

    fn commands_line(&self) -> String {
        let parts = LOCK_STATES.iter().zip(&self.commands_run);
        let parts = parts.map(|(state, counts)| {
            let met = counts.iter().filter(|count| **count > 0).count();
            let least = counts.iter().min().unwrap_or(&0);
            format!("{met} of 256 while {state}, each at least {least} times")
        });
        let parts: Vec<String> = parts.collect();
        format!("\n\ncommand codes run:\n  {}", parts.join(";\n  "))
    }

    /// One paragraph a heading, names and counts side by side.
    pub fn table(&self) -> String {
        let mut text = String::new();
        let mut current = None;
        let mut column = 0;
        for ((heading, name), count) in &self.counts {
            if current != Some(*heading) {
                current = Some(*heading);
                text += &format!("\n{}:\n ", heading.title());
                column = 0;
            }
            let entry = format!(" {name} {}", with_commas(*count));
            if column + entry.len() > 96 {
                text += "\n ";
                column = 0;
            }
            column += entry.len() + 1;
            text += &entry;
            text += ";";
        }
        text.trim_start().to_string() + &self.commands_line()
    }
}

fn ends_in_fault(reply: &[u8]) -> bool {
    let answers_end = reply.len().saturating_sub(FAULT_ANSWER.len() + 1);
    reply.ends_with(&FAULT_ANSWER) && answers_end.is_multiple_of(ANSWER_BYTES)
}

pub fn with_commas(number: u64) -> String {
    let digits = number.to_string();
    let mut text = String::new();
    for (place, digit) in digits.chars().enumerate() {
        if place > 0 && (digits.len() - place).is_multiple_of(3) {
            text.push(',');
        }
        text.push(digit);
    }
    text
}

#[cfg(test)]
mod tests {
    use super::*;

    #[test]
    fn numbers_are_grouped_by_thousands() {
        assert_eq!(with_commas(7), "7");
        assert_eq!(with_commas(8_412_345), "8,412,345");
    }

    #[test]
    fn a_class_is_missing_until_it_is_counted() {
        let mut coverage = Coverage::new();
        let name = "faults: nothing".to_string();
        assert!(!coverage.missing().contains(&name));
        let empty = "recordings ending in a fault: empty".to_string();
        assert!(coverage.missing().contains(&empty));
        coverage.count(Heading::Faults, "empty", 1);
        assert!(!coverage.missing().contains(&empty));
        assert!(coverage.table().contains("empty 1;"));
    }

    #[test]
    fn a_fault_answer_stands_after_whole_answers() {
        assert!(ends_in_fault(&[1, 0, 1, 5]));
        assert!(ends_in_fault(&[1, 0, 3, 0, 0, 0, 0, 1, 5]));
        assert!(!ends_in_fault(&[1, 0, 3, 0, 1, 5]));
    }
}

//! What sessions have reached, told from the states before and after each action and not from what
//! was meant.

use super::action::{Action, ACTIONS};
use super::view::*;
use std::collections::BTreeMap;
use thinnarom::lent::Reply;

#[derive(Default)]
pub struct Coverage {
    counts: BTreeMap<String, u64>,
}

const RESETS: [&str; 4] = ["a command", "SRST", "a hardware reset", "a power-on"];
const WAYS: [&str; 2] = ["a word", "bulk"];

impl Coverage {
    pub fn note(&mut self, class: String) {
        *self.counts.entry(class).or_default() += 1;
    }

    pub fn add(&mut self, other: &Coverage) {
        for (class, count) in &other.counts {
            *self.counts.entry(class.clone()).or_default() += count;
        }
    }

    pub fn actions(&self) -> u64 {
        let answered = self
            .counts
            .iter()
            .filter(|(class, _)| class.starts_with("answer "));
        answered.map(|(_, count)| count).sum()
    }

    /// Prints how often each class was reached, and fails if one never was.
    pub fn demand(&self, classes: Vec<String>) {
        let count = |class: &String| self.counts.get(class).copied().unwrap_or(0);
        classes
            .iter()
            .for_each(|class| println!("{:>9}  {class}", count(class)));
        let missing: Vec<_> = classes.iter().filter(|class| count(class) == 0).collect();
        assert!(missing.is_empty(), "never reached: {missing:#?}");
    }

    pub fn count(&mut self, before: &State, action: &Action, reply: &Reply, after: &State) {
        let kind = KINDS[usize::from(before[KIND])];
        self.note(format!(
            "answer {}: {}, {kind}",
            reply.answer,
            ACTIONS[action.number()]
        ));
        match action {
            Action::WriteRegister(7, code) => self.count_command(before, *code, after),
            Action::WriteRegister(8, value) if value & 0x04 != 0 => {
                self.count_drop(before, RESETS[1])
            }
            Action::WriteRegister(1..=6, _) => self.count_register_write(before),
            Action::ReadRegister(7 | 8) if has_dev(before) => {
                self.note("status read with DEV set".into())
            }
            Action::HardwareReset => self.count_drop(before, RESETS[2]),
            Action::PowerOn => self.count_drop(before, RESETS[3]),
            Action::ReadWord | Action::WriteWord(_) if reply.answer == 0 => {
                self.count_words(before, 1, WAYS[0], after)
            }
            Action::ReadWords(length) => self.count_bulk(before, *length, reply, after),
            Action::WriteWords(bytes) => self.count_bulk(before, bytes.len(), reply, after),
            _ => {}
        }
    }

    fn count_command(&mut self, before: &State, code: u8, after: &State) {
        if before[HELD] == 1 {
            self.note("command while reset is held".into());
        } else if has_dev(before) && code != 0x90 {
            self.note("command with DEV set".into());
        } else {
            self.note(format!(
                "command {code:02X}h while {}",
                LOCKS[usize::from(before[LOCK])]
            ));
            self.count_drop(before, RESETS[0]);
            self.count_started(before, code, after);
        }
    }

    fn count_started(&mut self, before: &State, code: u8, after: &State) {
        let end = match (after[KIND], after[FAILED], after[ERROR]) {
            (IDLE, 0, _) => "ends well",
            (IDLE, _, 0x10) => "finds a bad address",
            (IDLE, ..) => "aborts",
            _ => "takes or gives words",
        };
        self.note(format!("{code:02X}h {end}"));
        if code == 0xF2 && after[ATTEMPTS] == 0 {
            self.note("F2h aborts with no attempts left".into());
        }
        if code == 0x90 && has_dev(before) {
            self.note("90h with DEV set".into());
        }
        if matches!(after[KIND], SECTORS_READ | SECTORS_WRITTEN) {
            let by = if after[CURRENT.end - 1] & LBA != 0 {
                "LBA"
            } else {
                "CHS"
            };
            let made = after[TRANSLATION] != after[GEOMETRY];
            let translation = if made {
                "another translation"
            } else {
                "the factory's translation"
            };
            self.note(format!(
                "{} by {by} in {translation}",
                KINDS[usize::from(after[KIND])]
            ));
        }
    }

    fn count_drop(&mut self, before: &State, by: &str) {
        if before[KIND] != IDLE {
            self.note(format!(
                "{}: dropped by {by}",
                KINDS[usize::from(before[KIND])]
            ));
        }
    }

    fn count_register_write(&mut self, before: &State) {
        if before[KIND] != IDLE {
            self.note(format!(
                "{}: register write ignored",
                KINDS[usize::from(before[KIND])]
            ));
        } else if before[HELD] == 1 {
            self.note("register write while reset is held".into());
        }
    }

    fn count_words(&mut self, before: &State, words: usize, way: &str, after: &State) {
        let kind = KINDS[usize::from(before[KIND])];
        let blocks = (usize::from(before[PLACE]) + words) / 256;
        if blocks == 0 {
            return;
        }
        let end = match (after[KIND] == before[KIND], after[FAILED], after[ERROR]) {
            (true, ..) => "goes on",
            (false, 0, _) => "ends well",
            (false, _, 0x10) => "finds a bad address",
            _ => "aborts",
        };
        self.note(format!("{kind}: {end} behind a block's end by {way}"));
        if blocks > 1 {
            self.note(format!("{kind}: several blocks at once"));
        }
        if words == 65_536 {
            self.note(format!("{kind}: 256 sectors at once"));
        }
    }

    fn count_bulk(&mut self, before: &State, length: usize, reply: &Reply, after: &State) {
        let passed = reply.value as usize;
        match (length / 2, reply.answer) {
            (0, _) => self.note("bulk: no room for a word".into()),
            (_, 4) => self.note("bulk: turned away at once".into()),
            (asked, _) if passed < asked => {
                self.note("bulk: stopped where the transfer ends".into())
            }
            (asked, _) if passed == asked => self.note("bulk: all passed".into()),
            _ => unreachable!("more words than asked for"),
        }
        if length % 2 == 1 {
            self.note("bulk: an odd byte".into());
        }
        if reply.answer == 0 && passed > 0 {
            self.count_words(before, passed, WAYS[1], after);
        }
    }
}

/// Every class that generated sessions have to reach.
pub fn classes_of_sessions() -> Vec<String> {
    let mut classes = calls();
    classes.extend(commands());
    classes.extend(blocks());
    classes.extend(drops());
    classes.extend(judgements());
    let others = [
        "status read with DEV set",
        "command while reset is held",
        "command with DEV set",
        "90h with DEV set",
        "register write while reset is held",
        "bulk: no room for a word",
        "bulk: turned away at once",
        "bulk: stopped where the transfer ends",
        "bulk: all passed",
        "bulk: an odd byte",
        "sectors read: 256 sectors at once",
        "sectors written: 256 sectors at once",
        "91h ends well",
        "91h aborts",
        "F2h aborts with no attempts left",
        "resumed from bytes",
    ];
    classes.extend(others.map(String::from));
    classes
}

/// Every action in the middle of every transfer, with each answer that it can have there.
fn calls() -> Vec<String> {
    let mut classes = Vec::new();
    for (number, kind) in KINDS.iter().enumerate() {
        let (read, written) = (is_read(number as u8), is_written(number as u8));
        let words = |that_way: bool| if that_way { vec![0] } else { vec![4] };
        // Bulk with room for no word is done also where there is no transfer.
        let bulk = |that_way: bool| if that_way { vec![0] } else { vec![0, 4] };
        let registers = || vec![0, 1];
        let done = || vec![0];
        let answers = [
            registers(),
            registers(),
            words(read),
            words(written),
            bulk(read),
            bulk(written),
            done(),
            done(),
            done(),
        ];
        for (action, answers) in ACTIONS.iter().zip(answers) {
            classes.extend(
                answers
                    .iter()
                    .map(|answer| format!("answer {answer}: {action}, {kind}")),
            );
        }
    }
    classes
}

/// Every code in every lock state.
fn commands() -> Vec<String> {
    let codes =
        (0..=255).flat_map(|code| LOCKS.map(|lock| format!("command {code:02X}h while {lock}")));
    codes.collect()
}

/// Every way to go over a block's end.
fn blocks() -> Vec<String> {
    let mut classes = Vec::new();
    for way in WAYS {
        for (number, kind) in (0..).zip(KINDS).skip(1) {
            let ends: &[&str] = match number {
                SECTORS_READ | SECTORS_WRITTEN => &["goes on", "ends well", "finds a bad address"],
                UNLOCK | ERASE | DISABLE => &["ends well", "aborts"],
                _ => &["ends well"],
            };
            classes.extend(
                ends.iter()
                    .map(|end| format!("{kind}: {end} behind a block's end by {way}")),
            );
        }
    }
    for kind in ["sectors read", "sectors written"] {
        classes.push(format!("{kind}: several blocks at once"));
        for translation in ["another translation", "the factory's translation"] {
            classes.extend(["LBA", "CHS"].map(|by| format!("{kind} by {by} in {translation}")));
        }
    }
    for code in ["20h", "21h", "30h", "31h"] {
        classes.extend(
            ["finds a bad address", "aborts", "takes or gives words"]
                .map(|end| format!("{code} {end}")),
        );
    }
    for code in ["40h", "41h", "70h"] {
        classes.extend(["finds a bad address", "ends well"].map(|end| format!("{code} {end}")));
    }
    classes
}

fn drops() -> Vec<String> {
    let mut classes = Vec::new();
    for kind in &KINDS[1..] {
        classes.extend(RESETS.map(|by| format!("{kind}: dropped by {by}")));
        classes.push(format!("{kind}: register write ignored"));
    }
    classes
}

/// Every judgement of a password block that document 01 tells apart.
fn judgements() -> Vec<String> {
    let mut classes = Vec::new();
    for (which, whose) in [
        ("right", "user"),
        ("right", "master"),
        ("wrong", "user"),
        ("wrong", "master"),
    ] {
        for level in ["High", "Maximum"] {
            let right = which == "right";
            let opens = right && (whose, level) != ("master", "Maximum");
            let unlocked = if opens { "ends well" } else { "aborts" };
            let accepted = if right { "ends well" } else { "aborts" };
            classes.push(format!("F2h, {which} {whose}, {level}, locked: {unlocked}"));
            classes.push(format!("F2h, {which} {whose}, {level}, open: ends well"));
            classes.push(format!("F4h, {which} {whose}, {level}, locked: {accepted}"));
            classes.push(format!("F4h, {which} {whose}, {level}, open: {accepted}"));
            classes.push(format!("F6h, {which} {whose}, {level}, open: {accepted}"));
        }
        for code in ["F4h", "F6h"] {
            classes.push(format!(
                "{code}, {which} {whose}, security off, open: ends well"
            ));
        }
    }
    classes
}

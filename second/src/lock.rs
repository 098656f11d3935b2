//! Document 01, The lock.

use crate::Block;

/// Document 01, The lock: "all 32 bytes significant".
pub type Password = [u8; 32];

/// Document 01, The disk: "The device lives in one of three lock states".
#[derive(Clone, Copy, Debug, PartialEq, Eq)]
pub enum LockState {
    Open,
    Locked,
    Frozen,
}

/// Document 01, The lock: the level F1h sets with bit 8 of word 0.
#[derive(Clone, Copy, Debug, PartialEq, Eq)]
pub enum Level {
    High,
    Maximum,
}

/// Everything the security commands keep.
#[derive(Clone, Debug)]
pub struct Lock {
    state: LockState,
    enabled: bool,
    level: Level,
    user: Password,
    master: Password,
    prepared: bool,
    attempts: u8,
}

/// Document 01, The lock: what the one block of F1h, F2h, F4h and F6h says.
struct PasswordBlock {
    master: bool,
    level: Level,
    password: Password,
}

impl PasswordBlock {
    /// Document 01, The lock: word 0 bit 0 picks user or master, bit 8 the level, words 1 to 16
    /// are the password, byte 0 in the low byte of word 1 (reading 20).
    fn read(block: &Block) -> PasswordBlock {
        let mut password = [0; 32];
        for (pair, word) in password.as_chunks_mut().0.iter_mut().zip(&block[1..17]) {
            *pair = word.to_le_bytes();
        }
        PasswordBlock {
            master: block[0] & 0x0001 != 0,
            level: if block[0] & 0x0100 != 0 {
                Level::Maximum
            } else {
                Level::High
            },
            password,
        }
    }
}

impl Lock {
    /// Document 01, The disk: five attempts after power-on and hardware reset.
    pub const ATTEMPTS: u8 = 5;

    /// Document 01, The disk: user password 32 zeros, security not enabled, level High.
    pub fn new(master: Password) -> Lock {
        Lock {
            state: LockState::Open,
            enabled: false,
            level: Level::High,
            user: [0; 32],
            master,
            prepared: false,
            attempts: Lock::ATTEMPTS,
        }
    }

    /// Document 01, The disk: "frozen ended (house), locked exactly if security is enabled".
    pub fn power_on(&mut self) {
        self.attempts = Lock::ATTEMPTS;
        self.state = if self.enabled {
            LockState::Locked
        } else {
            LockState::Open
        };
    }

    /// Document 01, The lock: the commands that abort at once, before they take a block.
    pub fn refuses(&self, command: u8) -> bool {
        let by_state = match self.state {
            LockState::Open => false,
            LockState::Locked => matches!(
                command,
                0x20 | 0x21 | 0x30 | 0x31 | 0x40 | 0x41 | 0xF1 | 0xF5 | 0xF6
            ),
            LockState::Frozen => matches!(command, 0xF1 | 0xF2 | 0xF4 | 0xF6),
        };
        let by_count = match command {
            0xF2 => self.attempts == 0,
            0xF4 => self.attempts == 0 || !self.prepared,
            _ => false,
        };
        by_state || by_count
    }

    /// Document 01, The lock: F3h prepares.
    pub fn prepare(&mut self) {
        self.prepared = true;
    }

    /// Document 01, The lock: preparation ends as F4h ends, aborts or is dropped, and at a reset.
    pub fn end_preparation(&mut self) {
        self.prepared = false;
    }

    /// Document 01, The lock: "F5h freezes".
    pub fn freeze(&mut self) {
        self.state = LockState::Frozen;
    }

    /// Document 01, The lock: F1h user stores password and level and enables; master, password only.
    pub fn set_password(&mut self, block: &Block) {
        let given = PasswordBlock::read(block);
        if given.master {
            self.master = given.password;
        } else {
            self.user = given.password;
            self.level = given.level;
            self.enabled = true;
        }
    }

    /// Document 01, The lock: F2h, and whether it ends well.
    pub fn unlock(&mut self, block: &Block) -> bool {
        if self.state != LockState::Locked {
            return true;
        }
        let given = PasswordBlock::read(block);
        if given.master && self.level == Level::Maximum {
            return false;
        }
        let opens = self.matches(&given);
        if opens {
            self.state = LockState::Open;
        } else {
            self.attempts -= 1;
        }
        opens
    }

    /// Document 01, The lock: F4h and F6h, whether the block is accepted; then security off,
    /// level High, user password zero, open. Neither takes an attempt.
    pub fn switch_off(&mut self, block: &Block) -> bool {
        let accepted = !self.enabled || self.matches(&PasswordBlock::read(block));
        if accepted {
            self.enabled = false;
            self.level = Level::High;
            self.user = [0; 32];
            self.state = LockState::Open;
        }
        accepted
    }

    /// Document 01, The lock: compares the picked password, all 32 bytes.
    fn matches(&self, given: &PasswordBlock) -> bool {
        let held = if given.master {
            &self.master
        } else {
            &self.user
        };
        *held == given.password
    }

    /// Document 01, IDENTIFY words, 128: "bit 0 supported, 1 enabled, 2 locked, 3 frozen,
    /// 4 no attempts left, 8 level Maximum".
    pub fn identify_word(&self) -> u16 {
        1 | u16::from(self.enabled) << 1
            | u16::from(self.state == LockState::Locked) << 2
            | u16::from(self.state == LockState::Frozen) << 3
            | u16::from(self.attempts == 0) << 4
            | u16::from(self.level == Level::Maximum) << 8
    }
}

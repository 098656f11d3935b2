//! What the guest remembers of the lock: passwords set, level, attempts and preparation.

pub type Password = [u8; 32];

pub struct LockMemory {
    pub user: Password,
    pub master: Password,
    pub enabled: bool,
    pub maximum: bool,
    pub locked: bool,
    pub frozen: bool,
    pub attempts: u32,
    pub prepared: bool,
    pub blocks_right: u64,
    pub blocks_wrong: u64,
}

impl LockMemory {
    pub fn fresh() -> LockMemory {
        LockMemory {
            user: [0; 32],
            master: [0; 32],
            enabled: false,
            maximum: false,
            locked: false,
            frozen: false,
            attempts: 5,
            prepared: false,
            blocks_right: 0,
            blocks_wrong: 0,
        }
    }

    pub fn reset(&mut self) {
        self.locked = self.enabled;
        self.frozen = false;
        self.attempts = 5;
        self.prepared = false;
    }

    /// 0 open, 1 locked, 2 frozen.
    pub fn state(&self) -> usize {
        usize::from(self.locked) + 2 * usize::from(self.frozen)
    }

    pub fn freeze(&mut self) {
        self.frozen |= !self.locked;
    }

    /// Whether a password command gets as far as asking for its block.
    pub fn takes_block(&self, code: u8) -> bool {
        let spent = self.attempts == 0 && matches!(code, 0xF2 | 0xF4);
        let closed = self.locked && matches!(code, 0xF1 | 0xF6);
        let unprepared = code == 0xF4 && !self.prepared;
        !(self.frozen || spent || closed || unprepared)
    }

    pub fn block_arrived(&mut self, code: u8, block: &[u16; 17]) {
        let master = block[0] & 1 != 0;
        let mut given: Password = [0; 32];
        for (bytes, word) in given.chunks_mut(2).zip(&block[1..]) {
            bytes.copy_from_slice(&word.to_le_bytes());
        }
        match code {
            0xF1 if master => self.master = given,
            0xF1 => {
                self.user = given;
                self.enabled = true;
                self.maximum = block[0] & 0x100 != 0;
            }
            0xF2 if self.locked && !(master && self.maximum) => self.unlock(master, &given),
            0xF4 | 0xF6 => self.erase_or_disable(code, master, &given),
            _ => {}
        }
    }

    fn matches(&mut self, master: bool, given: &Password) -> bool {
        let right = *given == if master { self.master } else { self.user };
        self.blocks_right += u64::from(right);
        self.blocks_wrong += u64::from(!right);
        right
    }

    fn unlock(&mut self, master: bool, given: &Password) {
        if self.matches(master, given) {
            self.locked = false;
        } else {
            self.attempts -= 1;
        }
    }

    fn erase_or_disable(&mut self, code: u8, master: bool, given: &Password) {
        if code == 0xF4 {
            self.prepared = false;
        }
        if self.enabled && !self.matches(master, given) {
            return;
        }
        self.enabled = false;
        self.maximum = false;
        self.locked = false;
        self.user = [0; 32];
    }
}

//! A guest that does all that guests do, in an order drawn from a seed. It looks at the state's
//! bytes to know where the disk stands and what the right passwords are, so that few of its acts
//! are idle.

use super::action::Action;
use super::coverage::Coverage;
use super::random::Random;
use super::rig::Rig;
use super::view::*;
use std::collections::BTreeMap;
use thinnarom::lent::Reply;
use thinnarom::Geometry;

pub struct Guest {
    pub rig: Rig,
    pub random: Random,
    pub coverage: Coverage,
    /// The last state with each transfer and lock state.
    reached: BTreeMap<(u8, u8), State>,
}

/// How words of a transfer are passed.
#[derive(Clone, Copy)]
enum Carrying {
    Words,
    Bulk,
    Pieces,
    Mixed,
}

type Script = fn(&mut Guest);

/// How likely each script is.
const SCRIPTS: [(usize, Script); 17] = [
    (16, Guest::move_sectors),
    (1, Guest::move_256_sectors),
    (6, Guest::cut_sectors),
    (4, Guest::command_on_sectors),
    (5, Guest::translate),
    (6, Guest::use_buffer),
    (6, Guest::poke_registers),
    (5, Guest::reset_software),
    (3, Guest::reset_or_power),
    (4, Guest::select_device_one),
    (5, Guest::set_a_password),
    (6, Guest::lock_and_try),
    (4, Guest::erase),
    (3, Guest::disable),
    (2, Guest::freeze),
    (1, Guest::sweep_commands),
    (3, Guest::make_noise),
];

impl Guest {
    pub fn new(rig: Rig, random: Random) -> Guest {
        Guest {
            rig,
            random,
            coverage: Coverage::default(),
            reached: BTreeMap::new(),
        }
    }

    /// One script, and mostly a look at everything behind it.
    pub fn play(&mut self) {
        self.settle();
        let mut left = self
            .random
            .below(SCRIPTS.iter().map(|(weight, _)| weight).sum());
        for (weight, script) in SCRIPTS {
            if left < weight {
                script(self);
                break;
            }
            left -= weight;
        }
        if self.random.one_in(2) {
            self.rig.examine();
        }
    }

    // Acts.

    fn act(&mut self, action: Action) -> Reply {
        let reply = self.rig.act(&action, &mut self.coverage);
        let state = *self.rig.state();
        self.reached.insert((state[KIND], state[LOCK]), state);
        reply
    }

    fn write(&mut self, register: u8, value: u8) {
        self.act(Action::WriteRegister(register, value));
    }

    fn command(&mut self, code: u8) {
        self.write(7, code);
        if self.random.one_in(2) {
            self.look();
        }
    }

    fn is(&self, place: usize, value: u8) -> bool {
        self.rig.state()[place] == value
    }

    /// Brings the disk to where commands are heard, mostly.
    fn settle(&mut self) {
        if self.random.one_in(12) {
            return;
        }
        if self.is(HELD, 1) {
            self.write(8, 0);
        }
        if !self.is(KIND, IDLE) && self.random.one_in(2) {
            self.drop_transfer();
        }
        if has_dev(self.rig.state()) {
            self.write(6, 0);
        }
        if self.is(LOCK, LOCKED) && self.random.one_in(2) {
            self.open();
        }
    }

    fn drop_transfer(&mut self) {
        match self.random.below(5) {
            0 => self.reset_software(),
            1 => self.reset_or_power(),
            2 => self.command(0x90),
            3 => self.command(0x00),
            _ => self.command(0x10),
        }
    }

    /// Asks how things stand, or does what has to change nothing.
    fn look(&mut self) {
        let (register, value) = (self.random.byte(), self.random.byte());
        match self.random.below(9) {
            0 => self.act(Action::ReadRegister(7)),
            1 => self.act(Action::ReadRegister(8)),
            2 => self.act(Action::Line),
            3 => self.act(Action::ReadRegister(register % 10)),
            4 => self.act(Action::ReadRegister(register)),
            5 => self.act(Action::WriteRegister(register | 9, value)),
            6 if !self.is(KIND, IDLE) => self.act(Action::WriteRegister(1 + register % 6, value)),
            7 => self.word_against_the_transfer(),
            8 => self.act(Action::WriteRegister(8, value & !0x04)),
            _ => self.act(Action::WriteRegister(0, value)),
        };
    }

    fn word_against_the_transfer(&mut self) -> Reply {
        let length = self.random.below(5);
        let bytes = self.random.bytes(length);
        let word = self.random.word();
        let written = is_written(self.rig.state()[KIND]);
        match (written, self.random.one_in(2)) {
            (true, true) => self.act(Action::ReadWord),
            (true, false) => self.act(Action::ReadWords(length)),
            (false, true) => self.act(Action::WriteWord(word)),
            (false, false) => self.act(Action::WriteWords(bytes)),
        }
    }

    // Words.

    /// How many words the open transfer has left, as far as its sectors are good.
    fn words_left(&self) -> usize {
        let state = self.rig.state();
        256 * (1 + usize::from(state[AFTER])) - usize::from(state[PLACE])
    }

    /// Passes up to `words` words of the open transfer its own way.
    fn carry(&mut self, words: usize) {
        use Carrying::*;
        let carrying = match words.min(self.words_left()) {
            0..=1_024 => self.random.pick(&[Words, Bulk, Pieces, Mixed]),
            _ => self.random.pick(&[Bulk, Pieces]),
        };
        let mut left = words;
        while left > 0 && !self.is(KIND, IDLE) {
            let piece = match carrying {
                Words => 1,
                Bulk => left,
                Pieces => self.random.between(1, 700).min(left),
                Mixed => self.random.pick(&[1, 1, 2, 255, 256, 257]).min(left),
            };
            let bulk = piece != 1 || !matches!(carrying, Words);
            left -= self.pass(piece, bulk).min(left);
            if self.random.one_in(if bulk { 2 } else { 64 }) {
                self.look();
            }
        }
    }

    /// Passes words by one call; how many it took.
    fn pass(&mut self, words: usize, bulk: bool) -> usize {
        let odd = usize::from(self.random.one_in(3));
        let bytes = self.random.bytes(2 * words + odd);
        let read = is_read(self.rig.state()[KIND]);
        let reply = match (bulk, read) {
            (true, true) => self.act(Action::ReadWords(bytes.len())),
            (true, false) => self.act(Action::WriteWords(bytes)),
            (false, true) => self.act(Action::ReadWord),
            (false, false) => self.act(Action::WriteWord(u16::from_le_bytes([bytes[0], bytes[1]]))),
        };
        if bulk {
            reply.value as usize
        } else {
            1
        }
    }

    /// Passes given bytes, in one call or word by word.
    fn send(&mut self, bytes: &[u8]) {
        if self.random.one_in(2) {
            self.act(Action::WriteWords(bytes.to_vec()));
            return;
        }
        for pair in bytes.chunks_exact(2) {
            self.act(Action::WriteWord(u16::from_le_bytes([pair[0], pair[1]])));
        }
    }

    // Sectors.

    /// Puts an address and a count into registers 2 to 6: mostly a good one, often near the end.
    fn aim(&mut self) {
        let state = self.rig.state();
        let (factory, current) = (Counts::of(state, GEOMETRY), Counts::of(state, TRANSLATION));
        let lba = self.random.one_in(2);
        let all = if lba {
            factory.product()
        } else {
            current.product()
        } as usize;
        let number = match self.random.below(8) {
            0..=3 => self.random.below(all),
            4 | 5 => all - self.random.between(1, all.min(4)),
            6 => all + self.random.below(3),
            _ => self.random.below(1 << 28),
        } as u32;
        let [sector, low, high, head] = if lba {
            by_lba(number)
        } else {
            self.aim_by_chs(number, current)
        };
        let count = match self.random.below(8) {
            0..=3 => self.random.between(1, 4) as u8,
            4 => self.random.byte(),
            5 => 0,
            _ => 1,
        };
        let spare = self.random.byte() & 0xA0;
        for (register, value) in (2..).zip([count, sector, low, high, head | spare]) {
            self.write(register, value);
        }
    }

    /// A sector or a head that is not there for half of the numbers that name no sector.
    fn aim_by_chs(&mut self, number: u32, of: Counts) -> [u8; 4] {
        if number < of.product() {
            return by_chs(number, of);
        }
        match self.random.below(6) {
            0 => [0; 4],
            1 => [(of.sectors + 1) as u8, 0, 0, 0],
            2 => [1, 0, 0, of.heads as u8 & 0x0F],
            _ => by_chs(number, of),
        }
    }

    fn move_sectors(&mut self) {
        self.aim();
        let code = self.random.pick(&[0x20, 0x20, 0x21, 0x30, 0x30, 0x31]);
        self.command(code);
        self.carry(65_536 + 1);
        self.look();
    }

    /// The longest transfer that there is, by one call, where the disk has as many sectors.
    fn move_256_sectors(&mut self) {
        let Some(most) = capacity(self.rig.state()).checked_sub(256) else {
            return;
        };
        let first = self.random.below(most + 1) as u32;
        let [sector, low, high, head] = by_lba(first);
        for (register, value) in (2..).zip([0, sector, low, high, head]) {
            self.write(register, value);
        }
        let code = self.random.pick(&[0x20, 0x30]);
        self.command(code);
        if !self.is(KIND, IDLE) {
            self.pass(65_536, true);
        }
    }

    fn cut_sectors(&mut self) {
        self.aim();
        let code = self.random.pick(&[0x20, 0x21, 0x30, 0x31]);
        self.command(code);
        let words = self.random.pick(&[0, 1, 255, 256, 257, 300, 511, 512]);
        self.carry(words);
        if !self.random.one_in(3) {
            self.drop_transfer();
        }
    }

    fn command_on_sectors(&mut self) {
        self.aim();
        let low = self.random.byte() & 0x0F;
        let code = self
            .random
            .pick(&[0x40, 0x41, 0x40, 0x41, 0x70, 0x70 | low, 0x10 | low]);
        self.command(code);
        self.look();
    }

    fn translate(&mut self) {
        let all = capacity(self.rig.state());
        let sectors = match self.random.below(6) {
            0 => 0,
            1 => self.random.byte(),
            _ => self.random.between(1, all.min(16)) as u8,
        };
        let head = self.random.byte() & self.random.pick(&[0x00, 0x01, 0x03, 0x0F]);
        self.write(2, sectors);
        self.write(6, head);
        self.command(0x91);
    }

    // The buffer, registers and resets.

    fn use_buffer(&mut self) {
        let code = self.random.pick(&[0xE4, 0xE8, 0xEC]);
        self.command(code);
        let words = self.random.pick(&[256, 256, 300, 255, 1, 0]);
        self.carry(words);
    }

    fn poke_registers(&mut self) {
        for _ in 0..self.random.between(1, 6) {
            let (register, value) = (self.random.between(1, 6) as u8, self.random.byte());
            self.write(register, value & !DEV);
            self.look();
        }
    }

    fn reset_software(&mut self) {
        let value = self.random.byte() | 0x04;
        self.write(8, value);
        for _ in 0..self.random.below(5) {
            let (register, value) = (self.random.between(1, 7) as u8, self.random.byte());
            self.write(register, value);
            self.look();
        }
        if !self.random.one_in(5) {
            self.write(8, value & !0x04);
        }
    }

    fn reset_or_power(&mut self) {
        match self.random.one_in(2) {
            true => self.act(Action::HardwareReset),
            false => self.act(Action::PowerOn),
        };
    }

    fn select_device_one(&mut self) {
        let value = self.random.byte() | DEV;
        self.write(6, value);
        for _ in 0..self.random.between(1, 6) {
            self.look();
            self.act(Action::ReadRegister(7));
            let code = self.random.byte();
            self.command(code);
        }
        if self.random.one_in(2) {
            self.command(0x90);
        }
    }

    fn sweep_commands(&mut self) {
        // F5h freezes, so without it more codes find the disk open.
        let (first, freezes) = (self.random.byte(), self.random.one_in(2));
        for step in 0..=255u8 {
            let code = first.wrapping_add(step.wrapping_mul(77));
            if code != 0xF5 || freezes {
                self.write(7, code);
            }
            if self.random.one_in(8) {
                self.look();
            }
        }
    }

    fn make_noise(&mut self) {
        for _ in 0..self.random.between(10, 60) {
            let action = Action::drawn(&mut self.random);
            self.act(action);
        }
    }

    // The lock.

    /// A password block: word 0 picks, words 1 to 16 are the password, the rest is anything.
    fn block(&mut self, master: bool, maximum: bool, password: &[u8]) -> Vec<u8> {
        let mut block = self.random.bytes(512);
        block[0] = block[0] & !1 | u8::from(master);
        block[1] = block[1] & !1 | u8::from(maximum);
        block[2..34].copy_from_slice(password);
        block
    }

    fn right(&self, master: bool) -> Vec<u8> {
        self.rig.state()[if master { MASTER } else { USER }].to_vec()
    }

    /// A password that is right, nearly right or anything.
    fn guess(&mut self, master: bool) -> Vec<u8> {
        let mut password = self.right(master);
        match self.random.below(7) {
            0..=1 => {}
            2 => password[self.random.below(32)] ^= 1 << self.random.below(8),
            3 => password[31] ^= 0x80,
            4 => password[16..].fill(0),
            5 => password = self.right(!master),
            _ => password = self.random.bytes(32),
        }
        password
    }

    /// A password command with its block, now and then cut.
    fn password_command(&mut self, code: u8, block: &[u8]) {
        self.command(code);
        if self.is(KIND, IDLE) {
            return;
        }
        if self.random.one_in(5) {
            let words = self.random.pick(&[0, 1, 16, 17, 100, 255]);
            self.send(&block[..2 * words]);
            self.look();
            if !self.random.one_in(3) {
                self.drop_transfer();
            }
            return;
        }
        let judged = self.judged(code, block);
        self.send(block);
        let end = if self.is(FAILED, 1) {
            "aborts"
        } else {
            "ends well"
        };
        self.coverage.note(format!("{judged}: {end}"));
        self.look();
    }

    fn send_a_guess(&mut self, code: u8, master: bool) {
        let guess = self.guess(master);
        let block = self.block(master, false, &guess);
        self.password_command(code, &block);
    }

    /// What a block is about to be judged by.
    fn judged(&self, code: u8, block: &[u8]) -> String {
        let state = self.rig.state();
        let master = block[0] & 1 == 1;
        let whose = if master { "master" } else { "user" };
        let which = if block[2..34] == *self.right(master) {
            "right"
        } else {
            "wrong"
        };
        let security = match (state[ENABLED], state[MAXIMUM]) {
            (0, _) => "security off",
            (_, 0) => "High",
            _ => "Maximum",
        };
        format!(
            "{code:02X}h, {which} {whose}, {security}, {}",
            LOCKS[usize::from(state[LOCK])]
        )
    }

    fn set_a_password(&mut self) {
        let (master, maximum) = (self.random.one_in(3), self.random.one_in(3));
        let password = self.random.bytes(32);
        let block = self.block(master, maximum, &password);
        self.password_command(0xF1, &block);
    }

    /// Opens a locked disk with the right password, over a power-on if no attempts are left.
    fn open(&mut self) {
        if self.is(ATTEMPTS, 0) {
            self.act(Action::PowerOn);
        }
        let block = self.block(false, false, &self.right(false));
        self.act(Action::WriteRegister(7, 0xF2));
        self.send(&block);
    }

    fn lock_and_try(&mut self) {
        if self.is(ENABLED, 0) {
            self.set_a_password();
        }
        if !self.is(LOCK, LOCKED) {
            self.reset_or_power();
        }
        for _ in 0..self.random.between(1, 7) {
            let master = self.random.one_in(3);
            self.send_a_guess(0xF2, master);
            match self.random.below(6) {
                0 => self.reset_software(),
                1 => self.use_buffer(),
                _ => self.look(),
            }
        }
    }

    fn erase(&mut self) {
        if !self.is(LOCK, LOCKED) && self.random.one_in(2) {
            self.reset_or_power();
        }
        if !self.random.one_in(6) {
            self.command(0xF3);
        }
        if self.random.one_in(6) {
            self.use_buffer();
        }
        let master = self.random.one_in(2);
        self.send_a_guess(0xF4, master);
    }

    fn disable(&mut self) {
        if self.is(LOCK, LOCKED) {
            self.open();
        }
        let master = self.random.one_in(2);
        self.send_a_guess(0xF6, master);
    }

    /// Frozen the disk stays until a reset, so what runs then has to run here.
    fn freeze(&mut self) {
        self.command(0xF5);
        for _ in 0..self.random.between(1, 4) {
            match self.random.below(5) {
                0 => self.set_a_password(),
                1 => self.lock_and_try(),
                2 => self.sweep_commands(),
                3 => self.move_sectors(),
                _ => self.erase(),
            }
        }
    }
}

/// States that sessions on a small disk come to, one for each transfer and lock state that go
/// together.
pub fn reached(seed: u64) -> Vec<State> {
    // Open, all nine; locked, none on sectors and no SET or DISABLE; frozen, no password's.
    const TOGETHER: usize = 9 + 5 + 5;
    let geometry = Geometry {
        cylinders: 4,
        heads: 2,
        sectors_per_track: 8,
    };
    let mut found = BTreeMap::new();
    for number in 0..10 {
        let mut random = Random::new(seed, number);
        let rig = Rig::new(geometry, &mut random);
        let mut guest = Guest::new(rig, random);
        (0..40).for_each(|_| guest.play());
        found.extend(guest.reached);
    }
    assert_eq!(found.len(), TOGETHER, "{:?}", found.keys());
    found.into_values().collect()
}

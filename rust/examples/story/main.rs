//! The worked story: payment and then a fare plugin on one disk. What it prints is hosts/story.txt,
//! to be read from top to bottom; every step is held to what is expected of it, and one that is not
//! met ends the program.

mod guest;
mod words;

use guest::{expect, password_block, Disk, Guest, Step, BLOCK_WORDS, FAILED, IDLE, WORD_DUE};
use std::process::ExitCode;
use thinnarom::{Device, Error, Geometry, Identity, Register, Setup, SECTOR_BYTES};

const WRITE_SECTORS: u8 = 0x30;
const READ_SECTORS: u8 = 0x20;
const READ_VERIFY_SECTORS: u8 = 0x40;
const READ_BUFFER: u8 = 0xE4;
const IDENTIFY_DEVICE: u8 = 0xEC;
const SET_PASSWORD: u8 = 0xF1;
const UNLOCK: u8 = 0xF2;
const ERASE_PREPARE: u8 = 0xF3;
const ERASE_UNIT: u8 = 0xF4;
const DISABLE_PASSWORD: u8 = 0xF6;

const TOKENS: usize = 3;
const TOKENS_LBA: u32 = 16;
const TOKEN_WORDS: usize = TOKENS * BLOCK_WORDS;
const GUESSES: [&str; 5] = ["password", "12345678", "minibus", "payment", "letmein"];

/// What payment has on a disk and the plugin is to learn nothing of.
struct Secrets {
    password: &'static str,
    master: &'static str,
    tokens: [&'static str; TOKENS],
}

const PAYMENT: Secrets = Secrets {
    password: "seven green minibuses at dawn",
    master: "workshop, second drawer",
    tokens: [
        "rider 1041, token 9f27-03c8-51aa-e6d4",
        "rider 1107, token 40be-7715-c9f0-2a83",
        "rider 1322, token d1c6-58e9-0b47-9f3e",
    ],
};

const ANOTHER: Secrets = Secrets {
    password: "a heron stands in the ford",
    master: "ask the night clerk",
    tokens: [
        "rider 0007, token 1111-2222-3333-4444",
        "rider 0008, token 5555-6666-7777-8888",
        "rider 0009, token 9999-aaaa-bbbb-cccc",
    ],
};

impl Secrets {
    fn master_password(&self) -> [u8; 32] {
        let mut bytes = [0; 32];
        bytes[..self.master.len()].copy_from_slice(self.master.as_bytes());
        bytes
    }

    fn sectors(&self) -> [u8; TOKENS * SECTOR_BYTES] {
        let mut sectors = [0; TOKENS * SECTOR_BYTES];
        for (sector, token) in sectors.chunks_mut(SECTOR_BYTES).zip(self.tokens) {
            sector[..token.len()].copy_from_slice(token.as_bytes());
        }
        sectors
    }
}

/// Where the story goes: silent while the plugin is given the second disk, where only the
/// comparison counts.
#[derive(Clone, Copy, PartialEq)]
enum Story {
    Told,
    Silent,
}

impl Story {
    fn say(self, text: &str) {
        if self == Story::Told {
            println!("{text}");
        }
    }

    fn tell(self, what: &str, got: &str) {
        self.say(&format!("  {what:<66} {got}"));
    }

    // What both guests do.

    /// How a command stands, by Status and, after an error, Error.
    fn command_stands(self, guest: &mut Guest, what: &str, wanted: u8) -> Step {
        let status = guest.read(Register::Status)?;
        let mut text = words::status(status);
        if status == FAILED {
            let error = guest.read(Register::Error)?;
            text += &format!(", {}", words::error(error));
            expect(error == 0x04, "a command that fails here was aborted")?;
        }
        self.tell(what, &text);
        expect(status == wanted, what)
    }

    fn run(self, guest: &mut Guest, code: u8, what: &str, wanted: u8) -> Step {
        guest.write(Register::Command, code)?;
        self.command_stands(guest, what, wanted)
    }

    /// Asks a locked disk for the tokens, which it refuses.
    fn ask_for_tokens(self, guest: &mut Guest, what: &str) -> Step {
        guest.command_at(READ_SECTORS, TOKENS_LBA, TOKENS as u8)?;
        self.command_stands(guest, what, FAILED)
    }

    fn send_password(
        self,
        guest: &mut Guest,
        code: u8,
        password: &str,
        what: &str,
        wanted: u8,
    ) -> Step {
        guest.write(Register::Command, code)?;
        let due = guest.read(Register::AlternateStatus)? == WORD_DUE;
        expect(due, "the disk takes a password block")?;
        let passed = guest.write_words(&password_block(password))?;
        expect(passed == BLOCK_WORDS, "a password block passes whole")?;
        self.command_stands(guest, what, wanted)
    }

    fn identify(self, guest: &mut Guest, wanted: u16) -> Step {
        let mut block = [0; SECTOR_BYTES];
        guest.write(Register::Command, IDENTIFY_DEVICE)?;
        let passed = guest.read_words(&mut block)?;
        expect(passed == BLOCK_WORDS, "IDENTIFY DEVICE gives a block")?;
        guest.identify_words += passed;
        let security = u16::from_le_bytes([block[256], block[257]]);
        self.tell("IDENTIFY DEVICE (ECh)", &words::security(security));
        expect(
            security == wanted,
            "IDENTIFY DEVICE tells the lock as it is",
        )
    }

    /// READ BUFFER, word by word; all of them have to be zero.
    fn read_buffer(self, guest: &mut Guest, what: &str) -> Step {
        guest.write(Register::Command, READ_BUFFER)?;
        let mut zeros = 0;
        for _ in 0..BLOCK_WORDS {
            zeros += usize::from(guest.read_word()? == 0);
        }
        guest.zero_words += zeros;
        let all = zeros == BLOCK_WORDS;
        self.tell(
            what,
            if all {
                "256 words, all zero"
            } else {
                "words that are not zero"
            },
        );
        expect(all, "nothing stands in the buffer")
    }

    // The host and payment.

    fn make_disk(self, of: &Secrets) -> Step<Disk> {
        let geometry = Geometry {
            cylinders: 4,
            heads: 2,
            sectors_per_track: 8,
        };
        let device = Device::new(&Setup {
            geometry,
            identity: &Identity::new("BUS-0042", "1.0", "THINNAROM")?,
            master_password: &of.master_password(),
        })?;
        self.tell(
            "setup, 4 cylinders x 2 heads x 8 sectors",
            "64 sectors, in memory that the host lends",
        );
        Ok(Disk {
            device,
            sectors: vec![0; geometry.sector_bytes()],
        })
    }

    fn power_on(self, disk: &mut Disk, leaves: &str) -> Step {
        disk.device.power_on(&mut disk.sectors)?;
        self.tell("power-on", leaves);
        Ok(())
    }

    fn provision(self, disk: &mut Disk, of: &Secrets) -> Step {
        let payment = &mut Guest::on(disk);
        payment.command_at(WRITE_SECTORS, TOKENS_LBA, TOKENS as u8)?;
        let passed = payment.write_words(&of.sectors())?;
        expect(passed == TOKEN_WORDS, "the tokens are written")?;
        self.command_stands(
            payment,
            "WRITE SECTORS (30h), LBA 16, 3 sectors: the tokens",
            IDLE,
        )?;
        let what = "SECURITY SET PASSWORD (F1h), user, level High";
        self.send_password(payment, SET_PASSWORD, of.password, what, IDLE)?;
        self.power_on(disk, "locked from now on, until the password comes")
    }

    fn read_tokens(self, payment: &mut Guest, of: &Secrets) -> Step {
        let mut sectors = [0; TOKENS * SECTOR_BYTES];
        payment.command_at(READ_SECTORS, TOKENS_LBA, TOKENS as u8)?;
        expect(
            payment.line()?,
            "the interrupt line tells that a sector is ready",
        )?;
        expect(
            payment.read_words(&mut sectors)? == TOKEN_WORDS,
            "the tokens are read",
        )?;
        self.command_stands(payment, "READ SECTORS (20h), LBA 16, 3 sectors", IDLE)?;
        expect(
            sectors == of.sectors(),
            "the tokens are those that were written",
        )?;
        for (lba, sector) in (TOKENS_LBA..).zip(sectors.chunks(SECTOR_BYTES)) {
            let token = String::from_utf8_lossy(sector);
            let token = token.trim_end_matches('\0');
            self.say(&format!("      LBA {lba}: {token}"));
        }
        Ok(())
    }

    fn payment_opens(self, disk: &mut Disk, of: &Secrets) -> Step {
        let payment = &mut Guest::on(disk);
        self.identify(payment, 0x0007)?;
        self.ask_for_tokens(payment, "READ SECTORS (20h), before the password")?;
        let what = "SECURITY UNLOCK (F2h), payment's password";
        self.send_password(payment, UNLOCK, of.password, what, IDLE)?;
        self.read_tokens(payment, of)
    }

    // The plugin.

    fn looks_around(self, plugin: &mut Guest) -> Step {
        let status = plugin.read(Register::Status)?;
        self.tell("reads Status", &words::status(status));
        expect(status == IDLE, "the disk is idle")?;
        let mut text = String::new();
        for (number, start) in (1..).zip([0x01, 0x01, 0x01, 0x00, 0x00, 0x00]) {
            let value = plugin.read(Register::try_from(number)?)?;
            text += &format!("{value:02X}h ");
            expect(value == start, "registers 1 to 6 have their start values")?;
        }
        self.tell("reads registers 1 to 6", &(text + "(start values)"));
        expect(
            plugin.read_word() == Err(Error::NoTransfer),
            "no word without a transfer",
        )?;
        self.tell(
            "reads a data word with no command open",
            "answer 4, no transfer that way",
        );
        self.read_buffer(plugin, "READ BUFFER (E4h), for payment's last sector")?;
        self.identify(plugin, 0x0007)
    }

    fn asks_for_sectors(self, plugin: &mut Guest) -> Step {
        self.ask_for_tokens(plugin, "READ SECTORS (20h), LBA 16, 3 sectors")?;
        self.run(
            plugin,
            READ_VERIFY_SECTORS,
            "READ VERIFY SECTORS (40h)",
            FAILED,
        )?;
        self.run(plugin, WRITE_SECTORS, "WRITE SECTORS (30h)", FAILED)?;
        self.run(plugin, SET_PASSWORD, "SECURITY SET PASSWORD (F1h)", FAILED)?;
        self.run(
            plugin,
            DISABLE_PASSWORD,
            "SECURITY DISABLE PASSWORD (F6h)",
            FAILED,
        )
    }

    /// The first words of a password block, and another Command in the middle of it.
    fn cuts_a_password(self, plugin: &mut Guest, words: usize) -> Step {
        let block = password_block("half of this is not a password..");
        plugin.write(Register::Command, UNLOCK)?;
        let passed = plugin.write_words(&block[..2 * words])?;
        expect(passed == words, "part of a password block passes")?;
        let what = format!("SECURITY UNLOCK (F2h), {words} of 256 words, then READ BUFFER (E4h)");
        self.read_buffer(plugin, &what)
    }

    fn resets(self, plugin: &mut Guest) -> Step {
        let [held, after] = plugin.software_reset()?;
        let text = format!("{}, then {}", words::status(held), words::status(after));
        self.tell("software reset, SRST set and cleared", &text);
        expect(
            [held, after] == [0x80, IDLE],
            "a software reset shows BSY while it is held",
        )
    }

    fn guesses(self, plugin: &mut Guest) -> Step {
        for (number, guess) in (1..).zip(GUESSES) {
            let what = format!("SECURITY UNLOCK (F2h), guess {number}: \"{guess}\"");
            self.send_password(plugin, UNLOCK, guess, &what, FAILED)?;
            if number % 2 == 0 {
                self.resets(plugin)?;
            }
        }
        let what = "READ BUFFER (E4h), for what is left of the last guess";
        self.read_buffer(plugin, what)?;
        self.identify(plugin, 0x0017)?;
        self.resets(plugin)
    }

    /// After five mismatches the disk takes no password block at all, so the right one can't even
    /// be sent.
    fn tries_the_right_one(self, plugin: &mut Guest) -> Step {
        let what = "SECURITY UNLOCK (F2h), with payment's own password in hand";
        self.run(plugin, UNLOCK, what, FAILED)?;
        let refused = plugin.write_words(&password_block(PAYMENT.password));
        expect(
            refused == Err(Error::NoTransfer),
            "no word of the right password passes",
        )?;
        self.tell(
            "writes its words all the same",
            "answer 4, no transfer that way",
        );
        self.run(plugin, ERASE_PREPARE, "SECURITY ERASE PREPARE (F3h)", IDLE)?;
        self.run(plugin, ERASE_UNIT, "SECURITY ERASE UNIT (F4h)", FAILED)?;
        self.ask_for_tokens(plugin, "READ SECTORS (20h), LBA 16, 3 sectors")?;
        self.read_buffer(plugin, "READ BUFFER (E4h)")?;
        self.identify(plugin, 0x0017)
    }

    fn plugin_tries_everything(self, plugin: &mut Guest) -> Step {
        self.looks_around(plugin)?;
        self.say("\n  It asks for sectors, and for the lock.");
        self.asks_for_sectors(plugin)?;
        self.say("\n  It sends half a password and looks whether that half stays in the buffer.");
        self.cuts_a_password(plugin, 9)?;
        self.cuts_a_password(plugin, 255)?;
        self.say("\n  It tries to erase what it can't read.");
        self.run(plugin, ERASE_PREPARE, "SECURITY ERASE PREPARE (F3h)", IDLE)?;
        let what = "SECURITY ERASE UNIT (F4h), a guess: \"wipe\"";
        self.send_password(plugin, ERASE_UNIT, "wipe", what, FAILED)?;
        self.say("\n  It guesses, and hopes that a software reset gives attempts back.");
        self.guesses(plugin)?;
        self.say("\n  No attempts are left. Now somebody tells it the right password.");
        self.tries_the_right_one(plugin)
    }
}

const OPENING: &str = "\
One disk, two guests
====================

The tablet of a minibus runs its guests one after the other on one emulated disk. Payment keeps riders' card tokens
there; a fare plugin has the next turn. Guests have registers, data words and the interrupt line. Memory, resets by
hardware and power are the host's. Left is what a guest or the host does, right what the disk shows: Status 50h is
idle after a good end, Status 51h with Error 04h is a command that was aborted.

1. The host makes the disk, payment fills it
";

/// What the plugin hears on a disk with other tokens and passwords.
fn heard_elsewhere() -> Step<Vec<String>> {
    let mut other = Story::Silent.make_disk(&ANOTHER)?;
    Story::Silent.provision(&mut other, &ANOTHER)?;
    let mut plugin = Guest::on(&mut other);
    Story::Silent.plugin_tries_everything(&mut plugin)?;
    Ok(plugin.heard)
}

fn plugins_turn(disk: &mut Disk) -> Step {
    let story = Story::Told;
    let before = disk.sectors.clone();
    story.say("\n4. The plugin's turn; it has no password\n");
    let mut plugin = Guest::on(disk);
    story.plugin_tries_everything(&mut plugin)?;
    let Guest {
        heard,
        words,
        identify_words,
        zero_words,
        ..
    } = plugin;
    story.say("\n5. What the plugin got, as the host sees it\n");
    let given =
        format!("{words}: {identify_words} of IDENTIFY DEVICE, {zero_words} zeros of READ BUFFER");
    story.tell("data words that it was given", &given);
    expect(
        words == identify_words + zero_words,
        "the plugin was given nothing else",
    )?;
    expect(disk.sectors == before, "the plugin changed no sector")?;
    story.tell("sectors that it changed", "none");
    let same = heard_elsewhere()? == heard;
    expect(
        same,
        "a disk with other tokens and passwords tells the plugin the same",
    )?;
    story.tell(
        "the same plugin on a disk with other tokens and other passwords",
        "not one answer differs",
    );
    story.say("  So it is for every guest that never sends a right password: that is proved, docs/ROOM.md says how.");
    Ok(())
}

fn holds(bytes: &[u8], text: &str) -> bool {
    bytes
        .windows(text.len())
        .any(|part| part == text.as_bytes())
}

fn whole_story() -> Step {
    let story = Story::Told;
    story.say(OPENING);
    let disk = &mut story.make_disk(&PAYMENT)?;
    story.provision(disk, &PAYMENT)?;
    story.say("\n2. Payment's turn\n");
    story.payment_opens(disk, &PAYMENT)?;
    expect(
        holds(&disk.device.to_bytes(), PAYMENT.tokens[TOKENS - 1]),
        "the last token stands in the sector buffer",
    )?;
    story.say("  Payment ends here. The disk is open, and the last token still stands in its sector buffer.\n");
    story.say("3. Before anyone else has a turn, the host switches the disk off and on\n");
    story.power_on(disk, "locked, buffer zeroed, five attempts")?;
    plugins_turn(disk)?;
    story.say("\n6. The host switches the disk off and on, and payment has its next turn\n");
    story.power_on(disk, "locked, buffer zeroed, five attempts")?;
    story.payment_opens(disk, &PAYMENT)?;
    story.say("\nEvery step went as expected.");
    Ok(())
}

fn main() -> ExitCode {
    match whole_story() {
        Ok(()) => ExitCode::SUCCESS,
        Err(problem) => {
            eprintln!("{problem}");
            ExitCode::FAILURE
        }
    }
}

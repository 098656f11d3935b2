//! Guest sessions: weighted scripts put together under a theme, some with a damaged end.
//!
//! A new command or record kind adds a function to a script file and a line to `SCRIPTS`.

mod addresses;
mod buffers;
mod cuts;
pub mod damage;
mod erases;
pub mod guesses;
mod noise;
mod passwords;
mod registers;
mod resets;
mod sectors;
mod translations;

use crate::guest::Guest;
use crate::intentions::Intentions;
use crate::random::Random;
use crate::recording::Recording;

#[derive(Clone, Copy, PartialEq, Eq)]
enum Topic {
    Sectors,
    Cuts,
    Translations,
    Buffers,
    Registers,
    Resets,
    Passwords,
    Erases,
    Noise,
}

pub struct Script {
    pub name: &'static str,
    topic: Topic,
    weight: u32,
    run: fn(&mut Guest),
}

macro_rules! scripts {
    ($($topic:ident: $($weight:literal $module:ident::$name:ident,)+)+) => {
        /// Every script, how likely it is and which topic it belongs to.
        pub const SCRIPTS: &[Script] = &[$($(Script {
            name: stringify!($name),
            topic: Topic::$topic,
            weight: $weight,
            run: $module::$name,
        },)+)+];
    };
}

scripts! {
    Sectors:
        10 sectors::read_sectors,
        10 sectors::write_sectors,
        12 sectors::write_then_read_back,
        8 sectors::run_over_the_end,
        6 sectors::command_without_aiming,
        8 sectors::verify_sectors,
        8 sectors::first_address_bad,
        8 sectors::seek,
        6 sectors::recalibrate,
        5 sectors::many_single_sectors,
        1 sectors::read_whole_disk,
        1 sectors::write_whole_disk,
    Cuts:
        10 cuts::cut_read,
        10 cuts::cut_write,
        8 cuts::cut_buffer_transfer,
        5 cuts::leave_transfer_open,
    Translations:
        8 translations::change_translation,
        4 translations::refused_translation,
        3 translations::any_translation,
    Buffers:
        3 buffers::read_whole_identify,
        4 buffers::partial_identify,
        5 buffers::read_whole_buffer,
        3 buffers::partial_read_buffer,
        5 buffers::write_whole_buffer,
        4 buffers::partial_write_buffer,
    Registers:
        6 registers::write_registers_and_look,
        4 registers::registers_out_of_range,
        5 registers::words_with_no_transfer,
        5 registers::poll_for_a_while,
        6 registers::play_with_the_line,
        6 registers::unknown_command,
        2 registers::sweep_of_command_codes,
        6 registers::select_device_one,
    Resets:
        5 resets::software_reset,
        5 resets::reset_held_with_writes,
        4 resets::hardware_reset,
        4 resets::power_on,
        5 resets::diagnostic,
    Passwords:
        2 passwords::set_user_password,
        3 passwords::set_master_password,
        3 passwords::lock_and_look,
        5 passwords::unlock_with_right_user,
        4 passwords::unlock_with_right_master,
        4 passwords::unlock_with_any_guess,
        2 passwords::spend_all_attempts,
        2 passwords::some_wrong_then_right,
        2 passwords::wrong_disables_cost_nothing,
        6 passwords::disable_with_any_guess,
        5 passwords::disable_after_unlock,
        5 passwords::cut_password_block,
        3 passwords::every_command_while_locked,
        3 passwords::sweep_while_open,
        3 passwords::sweep_while_locked,
        3 passwords::sweep_while_frozen,
        3 passwords::freeze_then_everything,
    Erases:
        3 erases::erase_while_open,
        5 erases::erase_while_locked,
        2 erases::wrong_erases_cost_nothing,
        2 erases::erase_without_preparing,
        2 erases::erase_twice_prepared_once,
        4 erases::prepare_then_other_things_then_erase,
        4 erases::cut_erase_then_try_again,
    Noise:
        1 noise::uniform_noise,
        2 noise::leaning_noise,
}

pub struct Session {
    pub recording: Recording,
    pub intentions: Intentions,
    pub blocks_right: u64,
    pub blocks_wrong: u64,
    pub commands_run: [[u32; 256]; 3],
}

/// The topics a session dwells on; none means all scripts by their plain weights.
const THEMES: [&[Topic]; 10] = [
    &[],
    &[],
    &[Topic::Sectors, Topic::Translations],
    &[Topic::Sectors, Topic::Cuts],
    &[Topic::Passwords],
    &[Topic::Passwords, Topic::Erases],
    &[Topic::Cuts, Topic::Passwords, Topic::Buffers],
    &[Topic::Erases, Topic::Resets],
    &[Topic::Registers, Topic::Resets],
    &[Topic::Noise],
];

const DWELLING: u32 = 8;

fn script_weights(theme: &[Topic]) -> Vec<u32> {
    let stress = |script: &Script| match theme.contains(&script.topic) {
        true => script.weight * DWELLING,
        false => script.weight,
    };
    SCRIPTS.iter().map(stress).collect()
}

/// Short sessions stay near the start values, long ones mix everything.
fn session_length(random: &mut Random) -> usize {
    let length = match random.below(20) {
        0 => random.between(1, 60),
        1..=4 => random.between(60, 2_000),
        5..=13 => random.between(2_000, 20_000),
        14..=18 => random.between(20_000, 50_000),
        _ => random.between(50_000, 120_000),
    };
    length as usize
}

fn run_scripts(guest: &mut Guest, length: usize) {
    let theme = guest.random.pick(&THEMES);
    let weights = script_weights(theme);
    while guest.records.len() < length {
        let script = &SCRIPTS[guest.random.weighted(&weights)];
        guest.settle();
        // Sector work behind a lock shows little, so these sessions open it often.
        if theme.contains(&Topic::Sectors) && guest.random.one_in(2) {
            passwords::open_the_lock(guest);
        }
        guest.intentions.script(script.name);
        (script.run)(guest);
    }
}

/// Now and then the lock is opened and every sector shown at the end.
fn look_at_everything(guest: &mut Guest) {
    if guest.random.one_in(3) {
        guest.settle();
        passwords::open_the_lock(guest);
        sectors::read_whole_disk(guest);
    }
}

/// Session `number` of `seed`, the same on every run.
pub fn session(seed: u64, number: u64) -> Session {
    let mut random = Random::for_session(seed, number);
    let length = match random.one_in(100) {
        true => 0,
        false => session_length(&mut random),
    };
    let damaged = random.one_in(2);
    let mut guest = Guest::new(random);
    guest.words_per_aside = guest.random.pick(&[0, 0, 512, 64, 8, 2]);
    run_scripts(&mut guest, length);
    if length > 1_000 {
        look_at_everything(&mut guest);
    }
    let mut recording = Recording::of(std::mem::take(&mut guest.records));
    if damaged {
        let name = damage::damage(&mut guest.random, &mut recording);
        guest.intentions.damage = Some(name);
    }
    Session {
        recording,
        intentions: guest.intentions,
        blocks_right: guest.memory.lock.blocks_right,
        blocks_wrong: guest.memory.lock.blocks_wrong,
        commands_run: guest.memory.commands_run,
    }
}

#[cfg(test)]
mod tests {
    use super::*;

    #[test]
    fn a_session_repeats_for_its_seed() {
        for number in 0..40 {
            let first = session(7, number).recording.to_bytes();
            assert_eq!(first, session(7, number).recording.to_bytes());
        }
        let other = session(8, 3).recording.to_bytes();
        assert_ne!(session(7, 3).recording.to_bytes(), other);
    }

    #[test]
    fn every_script_runs_on_a_fresh_guest() {
        for script in SCRIPTS {
            let mut guest = Guest::new(Random::for_session(3, 9));
            (script.run)(&mut guest);
            assert!(!guest.records.is_empty(), "{} sent nothing", script.name);
        }
    }
}

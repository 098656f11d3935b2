//! What a host pays for an action on this device: the same kinds of action, told in the same way, as hosts/c/cost.c.
//!
//!     cost               times every kind, prints KIND, a tab and the median of many rounds that take turns
//!     cost KIND ROUNDS   makes those rounds of one kind and prints how many actions they were; for counting instructions in batch_*
//!
//! This device keeps its state and its memory to itself, so no call has a state to test; and it takes one word at a time.

use second::{Answer, Device, Identity, WORDS};
use std::hint::black_box;
use std::time::Instant;

const SECTORS: usize = 64;
const ROUNDS: usize = 1001;
const COPIES: usize = 32;
const BLOCKS: usize = 8;

const STATUS: u8 = 7;
const COMMAND: u8 = 7;
const SECTOR_COUNT: u8 = 2;
const LBA: u8 = 0x40;
const READ_SECTORS: u8 = 0x20;
const WRITE_SECTORS: u8 = 0x30;

struct Bench {
    device: Device,
    copies: Vec<Device>,
}

struct Row {
    kind: &'static str,
    prepare: fn(&mut Bench),
    batch: fn(&mut Bench),
    actions: usize,
}

const ROWS: [Row; 9] = [
    row("register-read", idle, batch_register_read, SECTORS),
    row("register-write", idle, batch_register_write, SECTORS),
    row("word-read", reading, batch_word_read, WORDS - 1),
    row("word-write", writing, batch_word_write, WORDS - 1),
    row(
        "last-word-read",
        at_last_words_read,
        batch_last_word_read,
        COPIES,
    ),
    row(
        "last-word-write",
        at_last_words_written,
        batch_last_word_write,
        COPIES,
    ),
    row("command", reading, batch_command, SECTORS),
    row("words-read", reading, batch_words_read, BLOCKS),
    row("words-write", writing, batch_words_write, BLOCKS),
];

const fn row(
    kind: &'static str,
    prepare: fn(&mut Bench),
    batch: fn(&mut Bench),
    actions: usize,
) -> Row {
    Row {
        kind,
        prepare,
        batch,
        actions,
    }
}

// The actions as calls that stay calls, as a host in another language would make them.

#[inline(never)]
fn read_register(device: &mut Device, n: u8) -> Answer {
    device.read_register(n)
}

#[inline(never)]
fn write_register(device: &mut Device, n: u8, v: u8) -> Answer {
    device.write_register(n, v)
}

#[inline(never)]
fn read_word(device: &mut Device) -> Answer {
    device.read_word()
}

#[inline(never)]
fn write_word(device: &mut Device, w: u16) -> Answer {
    device.write_word(w)
}

// What stands ready before a batch; not timed.

fn idle(bench: &mut Bench) {
    bench.device.power_on();
}

fn command_open(bench: &mut Bench, code: u8) {
    idle(bench);
    for (register, value) in (2..).zip([SECTORS as u8, 0, 0, 0, LBA, code]) {
        bench.device.write_register(register, value);
    }
}

fn reading(bench: &mut Bench) {
    command_open(bench, READ_SECTORS);
}

fn writing(bench: &mut Bench) {
    command_open(bench, WRITE_SECTORS);
}

fn at_last_words_read(bench: &mut Bench) {
    reading(bench);
    for _ in 1..WORDS {
        bench.device.read_word();
    }
    bench.copies.fill(bench.device.clone());
}

fn at_last_words_written(bench: &mut Bench) {
    writing(bench);
    for _ in 1..WORDS {
        bench.device.write_word(0);
    }
    bench.copies.fill(bench.device.clone());
}

// Batches of one kind.

#[inline(never)]
fn batch_register_read(bench: &mut Bench) {
    for _ in 0..SECTORS {
        black_box(read_register(&mut bench.device, STATUS));
    }
}

#[inline(never)]
fn batch_register_write(bench: &mut Bench) {
    for i in 0..SECTORS {
        black_box(write_register(&mut bench.device, SECTOR_COUNT, i as u8));
    }
}

#[inline(never)]
fn batch_word_read(bench: &mut Bench) {
    for _ in 1..WORDS {
        black_box(read_word(&mut bench.device));
    }
}

#[inline(never)]
fn batch_word_write(bench: &mut Bench) {
    for i in 1..WORDS {
        black_box(write_word(&mut bench.device, i as u16));
    }
}

#[inline(never)]
fn batch_last_word_read(bench: &mut Bench) {
    for device in &mut bench.copies {
        black_box(read_word(device));
    }
}

#[inline(never)]
fn batch_last_word_write(bench: &mut Bench) {
    for device in &mut bench.copies {
        black_box(write_word(device, 1));
    }
}

#[inline(never)]
fn batch_command(bench: &mut Bench) {
    for _ in 0..SECTORS {
        black_box(write_register(&mut bench.device, COMMAND, READ_SECTORS));
    }
}

#[inline(never)]
fn batch_words_read(bench: &mut Bench) {
    for _ in 0..BLOCKS * WORDS {
        black_box(read_word(&mut bench.device));
    }
}

#[inline(never)]
fn batch_words_write(bench: &mut Bench) {
    for i in 0..BLOCKS * WORDS {
        black_box(write_word(&mut bench.device, i as u16));
    }
}

fn timed(bench: &mut Bench, row: &Row) -> f64 {
    (row.prepare)(bench);
    let began = Instant::now();
    (row.batch)(bench);
    began.elapsed().as_nanos() as f64 / row.actions as f64
}

/// The kinds take turns, so that whatever else the machine does meets all of them.
fn time_all(bench: &mut Bench) {
    let mut times: Vec<Vec<f64>> = ROWS.iter().map(|_| Vec::new()).collect();
    for _ in 0..ROUNDS {
        for (row, times) in ROWS.iter().zip(&mut times) {
            times.push(timed(bench, row));
        }
    }
    for (row, times) in ROWS.iter().zip(&mut times) {
        times.sort_by(f64::total_cmp);
        println!("{}\t{:.1}", row.kind, times[ROUNDS / 2]);
    }
}

fn only(bench: &mut Bench, kind: &str, rounds: usize) {
    let row = ROWS.iter().find(|row| row.kind == kind);
    let row = row.expect("a kind of action that is timed here");
    for _ in 0..rounds {
        timed(bench, row);
    }
    println!("{}", rounds * row.actions);
}

fn main() {
    let device =
        Device::setup(4, 2, 8, &Identity::SPACES, [0; 32]).expect("setup takes the geometry");
    let mut bench = Bench {
        copies: vec![device.clone(); COPIES],
        device,
    };
    let words: Vec<String> = std::env::args().collect();
    match &words[1..] {
        [] => time_all(&mut bench),
        [kind, rounds] => only(
            &mut bench,
            kind,
            rounds.parse().expect("a number of rounds"),
        ),
        _ => panic!("cost [KIND ROUNDS]"),
    }
}

//! A million states, in shape and out of it, lent to every call: the answer is 2 exactly where a
//! judge written from the papers says so, a refused call changes nothing, and a state in shape
//! stays so.

mod common;

use common::action::{on_lent, Action};
use common::guest::reached;
use common::judge::{broken, in_shape, keeps_barely, CLAUSES};
use common::random::Random;
use common::states::{break_clause, sound};
use common::view::*;
use std::collections::BTreeMap;
use thinnarom::lent::{Lent, BUFFER_BYTES, STATE_BYTES};
use thinnarom::{Device, Error};

const SEED: u64 = 2;

/// Bytes on both sides of each lent piece, which nothing may touch.
const MARGIN: usize = 32;

/// The most sectors that are lent whole.
const MOST: usize = 64;

/// The three pieces with their margins.
#[derive(Clone, PartialEq)]
struct Pieces {
    state: Vec<u8>,
    buffer: Vec<u8>,
    sectors: Vec<u8>,
}

impl Pieces {
    fn drawn(random: &mut Random) -> Pieces {
        Pieces {
            state: random.bytes(STATE_BYTES + 2 * MARGIN),
            buffer: random.bytes(BUFFER_BYTES + 2 * MARGIN),
            sectors: random.bytes(512 * MOST + 2 * MARGIN),
        }
    }

    fn lend(&mut self, sectors_length: usize) -> Lent<'_> {
        Lent {
            state: &mut self.state[MARGIN..][..STATE_BYTES],
            buffer: (&mut self.buffer[MARGIN..][..BUFFER_BYTES])
                .try_into()
                .unwrap(),
            sectors: &mut self.sectors[MARGIN..][..sectors_length],
        }
    }

    fn state(&self) -> &State {
        self.state[MARGIN..][..STATE_BYTES].try_into().unwrap()
    }

    /// Whether what was not lent is as it was.
    fn same_margins(&self, other: &Pieces) -> bool {
        let margins = |piece: &[u8]| {
            [
                piece[..MARGIN].to_vec(),
                piece[piece.len() - MARGIN..].to_vec(),
            ]
        };
        margins(&self.state) == margins(&other.state)
            && margins(&self.buffer) == margins(&other.buffer)
            && margins(&self.sectors) == margins(&other.sectors)
    }
}

/// What was tried, by clause.
#[derive(Default)]
struct Tally {
    states: u64,
    in_shape: u64,
    /// States refused for this clause and no other.
    alone: BTreeMap<usize, u64>,
    /// States in shape that keep this clause barely.
    barely: BTreeMap<usize, u64>,
    /// How often each answer was given.
    answers: BTreeMap<u32, u64>,
}

impl Tally {
    fn count(&mut self, state: &State, answer: u32) {
        let broken = broken(state);
        self.states += 1;
        *self.answers.entry(answer).or_default() += 1;
        match broken[..] {
            [] => self.count_barely(state),
            [clause] => *self.alone.entry(clause as usize).or_default() += 1,
            _ => {}
        }
    }

    fn count_barely(&mut self, state: &State) {
        self.in_shape += 1;
        for clause in CLAUSES {
            let barely = keeps_barely(state, clause);
            *self.barely.entry(clause as usize).or_default() += u64::from(barely);
        }
    }

    fn demand_all(&self) {
        println!(
            "{} states, {} in shape; answers {:?}",
            self.states, self.in_shape, self.answers
        );
        assert!(self.states >= 1_000_000);
        for clause in CLAUSES {
            let count =
                |of: &BTreeMap<usize, u64>| of.get(&(clause as usize)).copied().unwrap_or(0);
            let (alone, barely) = (count(&self.alone), count(&self.barely));
            println!("{alone:>8} broken alone, {barely:>8} barely kept: {clause:?}");
            assert!(alone > 100 && barely > 100, "{clause:?} is hardly tried");
        }
        assert!([0, 1, 2, 3, 4]
            .iter()
            .all(|answer| self.answers[answer] > 1_000));
    }
}

struct Trial {
    pieces: Pieces,
    random: Random,
    tally: Tally,
}

/// The answer that document 01's order gives: 2, 3, then 1 or 4.
fn expected_answer(state: &State, sectors_length: usize, action: &Action) -> u32 {
    let words = |that_way: bool| if that_way { 0 } else { 4 };
    match action {
        _ if !in_shape(state) => 2,
        _ if sectors_length != 512 * capacity(state) => 3,
        Action::ReadRegister(n) | Action::WriteRegister(n, _) => u32::from(!(1..=8).contains(n)),
        Action::ReadWords(0 | 1) => 0,
        Action::WriteWords(bytes) if bytes.len() < 2 => 0,
        Action::ReadWord | Action::ReadWords(_) => words(is_read(state[KIND])),
        Action::WriteWord(_) | Action::WriteWords(_) => words(is_written(state[KIND])),
        _ => 0,
    }
}

impl Trial {
    /// Mostly as many sectors as the state asks for, where that many are there.
    fn sectors_length(&mut self, state: &State) -> usize {
        let asked = 512 * capacity(state);
        match self.random.below(8) {
            0 => self.random.below(512 * MOST + 1),
            _ if asked <= 512 * MOST => asked,
            _ => self.random.pick(&[0, 512, 512 * MOST]),
        }
    }

    fn try_state(&mut self, state: &State) {
        let action = Action::drawn(&mut self.random);
        let sectors_length = self.sectors_length(state);
        self.pieces.state[MARGIN..][..STATE_BYTES].copy_from_slice(state);
        let before = self.pieces.clone();
        let got = on_lent(&mut self.pieces.lend(sectors_length), &action);
        let expected = expected_answer(state, sectors_length, &action);
        let told = || {
            format!(
                "{action:02X?} over {sectors_length} bytes and {state:02X?}, which breaks {:?}",
                broken(state)
            )
        };
        assert_eq!(got.reply.answer, expected, "{}", told());
        if expected == 0 {
            self.done_well(&before, &action, told);
        } else {
            assert_eq!(got.reply.value, 0, "{}", told());
            assert!(
                self.pieces == before,
                "refused, and something changed: {}",
                told()
            );
            assert!(
                got.room
                    .iter()
                    .all(|byte| *byte == common::action::UNTOUCHED),
                "{}",
                told()
            );
        }
        self.kept_as_bytes(state);
        self.tally.count(state, expected);
    }

    fn done_well(&self, before: &Pieces, action: &Action, told: impl Fn() -> String) {
        let (old, new) = (before.state(), self.pieces.state());
        assert!(
            in_shape(new),
            "left out of shape, {:?}: {}",
            broken(new),
            told()
        );
        assert!(
            self.pieces.same_margins(before),
            "touched what was not lent: {}",
            told()
        );
        for built in [GEOMETRY, IDENTITY] {
            assert_eq!(old[built.clone()], new[built], "{}", told());
        }
        let stores = matches!(old[KIND], SECTORS_WRITTEN | ERASE);
        let writes = matches!(action, Action::WriteWord(_) | Action::WriteWords(_));
        assert!(
            stores && writes || self.pieces.sectors == before.sectors,
            "{}",
            told()
        );
        if matches!(action, Action::Line | Action::ReadRegister(1..=6 | 8)) {
            assert!(self.pieces == *before, "{}", told());
        }
    }

    /// The crate's own door for bytes goes by the same rule.
    fn kept_as_bytes(&self, state: &State) {
        let mut bytes = [0; Device::BYTES];
        bytes[..STATE_BYTES].copy_from_slice(state);
        match Device::from_bytes(&bytes) {
            Ok(device) => {
                assert!(in_shape(state));
                assert_eq!(device.to_bytes(), bytes);
            }
            Err(error) => assert!(error == Error::OutOfShape && !in_shape(state)),
        }
    }

    fn random_bytes(&mut self, count: usize) {
        for _ in 0..count {
            let mut state = [0; STATE_BYTES];
            self.random.fill(&mut state);
            self.try_state(&state);
        }
    }

    /// In shape, with one clause broken, and with a few bytes changed.
    fn made_by_hand(&mut self, count: usize) {
        for number in 0..count {
            let mut state = sound(&mut self.random);
            assert!(in_shape(&state), "{:?}", broken(&state));
            match number % 4 {
                0 | 1 => break_clause(&mut state, self.random.pick(&CLAUSES), &mut self.random),
                2 => self.change_some(&mut state),
                _ => {}
            }
            self.try_state(&state);
        }
    }

    /// One to three bytes but for passwords, whose bytes are all alike.
    fn change_some(&mut self, state: &mut State) {
        for _ in 0..self.random.between(1, 3) {
            let place = self.random.below(USER.start);
            state[place] = self.random.byte();
        }
    }

    fn some_bytes_changed(&mut self, base: &State, count: usize) {
        for _ in 0..count {
            let mut state = *base;
            self.change_some(&mut state);
            self.try_state(&state);
        }
    }

    /// Every byte at every place.
    fn each_byte_changed(&mut self, base: &State) {
        for place in 0..STATE_BYTES {
            for value in 0..=255 {
                let mut state = *base;
                state[place] = value;
                self.try_state(&state);
            }
        }
    }
}

#[test]
fn a_million_states_are_judged_as_the_papers_do() {
    let mut random = Random::new(SEED, u64::MAX);
    let pieces = Pieces::drawn(&mut random);
    let mut trial = Trial {
        pieces,
        random,
        tally: Tally::default(),
    };
    trial.random_bytes(100_000);
    trial.made_by_hand(300_000);
    for state in reached(SEED) {
        trial.each_byte_changed(&state);
        trial.some_bytes_changed(&state, 1_000);
    }
    trial.tally.demand_all();
}

//! Making a recording that shows a difference as small and plain as it gets.

use crate::recording::{Record, Recording};
use std::ops::Range;
use std::time::{Duration, Instant};

/// Enough for a session of tens of thousands of records, and an end to the search.
const JUDGEMENTS: usize = 6_000;

/// An end to the search where each judgement waits for a program that hangs.
const TIME_LIMIT: Duration = Duration::from_secs(120);

struct Shrinker<Judge> {
    /// Tells the record where the replies part, if they still do.
    judge: Judge,
    best: Recording,
    judgements_left: usize,
    started: Instant,
}

/// The smallest recording found on which `judge` still sees the replies part.
pub fn shrink<Judge>(recording: Recording, judge: Judge) -> Recording
where
    Judge: FnMut(&Recording) -> Option<usize>,
{
    let mut shrinker = Shrinker {
        judge,
        best: recording.clone(),
        judgements_left: JUDGEMENTS,
        started: Instant::now(),
    };
    shrinker.keep_if_different(recording);
    shrinker.drop_tail();
    loop {
        let before = shrinker.best.clone();
        shrinker.remove_ranges();
        shrinker.plain_values();
        shrinker.clear_bits();
        shrinker.shorten_tail();
        if shrinker.best == before || shrinker.judgements_left == 0 {
            return shrinker.best;
        }
    }
}

impl<Judge: FnMut(&Recording) -> Option<usize>> Shrinker<Judge> {
    fn parts(&mut self, candidate: &Recording) -> Option<usize> {
        if self.started.elapsed() > TIME_LIMIT {
            self.judgements_left = 0;
        }
        self.judgements_left = self.judgements_left.checked_sub(1)?;
        (self.judge)(candidate)
    }

    /// Takes the candidate if it still shows a difference, without the records after it.
    fn keep_if_different(&mut self, candidate: Recording) -> bool {
        let Some(parting) = self.parts(&candidate) else {
            return false;
        };
        let mut cut = candidate.clone();
        cut.records.truncate(parting + 1);
        if parting < candidate.records.len() {
            cut.tail.clear();
        }
        let cut_is_enough = cut != candidate && self.parts(&cut).is_some();
        self.best = if cut_is_enough { cut } else { candidate };
        true
    }

    fn drop_tail(&mut self) {
        if !self.best.tail.is_empty() {
            let mut candidate = self.best.clone();
            candidate.tail.clear();
            self.keep_if_different(candidate);
        }
    }

    /// Tries a change on ranges of half the records, then quarters, down to single ones.
    fn on_halving_ranges(&mut self, change: fn(&mut Recording, Range<usize>) -> bool) {
        let mut size = self.best.records.len().next_power_of_two();
        while size > 0 && self.judgements_left > 0 {
            let mut end = self.best.records.len();
            while end > 0 {
                let start = end.saturating_sub(size);
                let mut candidate = self.best.clone();
                if change(&mut candidate, start..end) {
                    self.keep_if_different(candidate);
                }
                end = start.min(self.best.records.len());
            }
            size /= 2;
        }
    }

    fn remove_ranges(&mut self) {
        self.on_halving_ranges(|recording, range| {
            recording.records.drain(range);
            true
        });
    }

    fn plain_values(&mut self) {
        self.on_halving_ranges(|recording, range| {
            let mut changed = false;
            for record in &mut recording.records[range] {
                let plain = plain(*record);
                changed |= plain != *record;
                *record = plain;
            }
            changed
        });
    }

    fn clear_bits(&mut self) {
        let mut index = 0;
        while index < self.best.records.len() && self.judgements_left > 0 {
            for bit in (0..16).rev() {
                let mut candidate = self.best.clone();
                let Some(record) = candidate.records.get_mut(index) else {
                    break;
                };
                let cleared = without_bit(*record, bit);
                if cleared != *record {
                    *record = cleared;
                    self.keep_if_different(candidate);
                }
            }
            index += 1;
        }
    }

    fn shorten_tail(&mut self) {
        let mut size = self.best.tail.len().next_power_of_two();
        while size > 0 {
            while self.best.tail.len() >= size {
                let mut candidate = self.best.clone();
                candidate.tail.truncate(self.best.tail.len() - size);
                if !self.keep_if_different(candidate) {
                    break;
                }
            }
            size /= 2;
        }
    }
}

/// The record with a zero value; commands keep their code, which is what they are.
fn plain(record: Record) -> Record {
    match record {
        Record::WriteRegister(register, _) if register != 7 => Record::WriteRegister(register, 0),
        Record::WriteWord(_) => Record::WriteWord(0),
        other => other,
    }
}

fn without_bit(record: Record, bit: u32) -> Record {
    match record {
        Record::WriteRegister(register, value) if register != 7 && bit < 8 => {
            Record::WriteRegister(register, value & !(1 << bit))
        }
        Record::WriteWord(word) => Record::WriteWord(word & !(1 << bit)),
        other => other,
    }
}

#[cfg(test)]
mod tests {
    use super::*;
    use crate::sessions::session;

    /// Parts at the first status read after a command 20h that followed a word with bit 3.
    fn planted(recording: &Recording) -> Option<usize> {
        let mut steps = 0;
        for (index, record) in recording.records.iter().enumerate() {
            match (steps, *record) {
                (0, Record::WriteWord(word)) if word & 8 != 0 => steps = 1,
                (1, Record::WriteRegister(7, 0x20)) => steps = 2,
                (2, Record::ReadRegister(7)) => return Some(index),
                _ => {}
            }
        }
        None
    }

    #[test]
    fn a_long_session_shrinks_to_the_records_that_matter() {
        let long = (0..)
            .map(|number| session(5, number).recording)
            .find(|recording| recording.records.len() > 5_000 && planted(recording).is_some())
            .unwrap();
        let expected = vec![
            Record::WriteWord(8),
            Record::WriteRegister(7, 0x20),
            Record::ReadRegister(7),
        ];
        assert_eq!(shrink(long, planted), Recording::of(expected));
    }

    #[test]
    fn a_damaged_tail_shrinks_too() {
        let mut recording = Recording::of(vec![Record::ReadWord; 9]);
        recording.tail = vec![0, 9, 8, 7, 6, 5];
        let judge = |candidate: &Recording| {
            let damaged = candidate.tail.len() >= 2;
            damaged.then_some(candidate.records.len())
        };
        let small = shrink(recording, judge);
        assert_eq!(small.records, Vec::new());
        assert_eq!(small.tail, vec![0, 9]);
    }

    #[test]
    fn a_recording_without_a_difference_stays() {
        let recording = Recording::of(vec![Record::ReadWord; 5]);
        assert_eq!(shrink(recording.clone(), |_| None), recording);
    }
}

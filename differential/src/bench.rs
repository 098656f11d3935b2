//! Recordings for timing: long, plain driver work of one kind.

use crate::memory::{BLOCK_WORDS, CAPACITY, LBA};
use crate::random::Random;
use crate::recording::{Record, VERSION};

pub const KINDS: [&str; 5] = ["read", "write", "mixed", "single", "poll"];

struct BenchRecording {
    bytes: Vec<u8>,
    random: Random,
    words_sent: u32,
}

/// A recording of at least `size` bytes, ending with a whole command.
pub fn bench_recording(kind: &str, size: usize) -> Result<Vec<u8>, String> {
    let mut recording = BenchRecording {
        bytes: vec![VERSION],
        random: Random::for_session(0, 0),
        words_sent: 0,
    };
    let mut turn = 0;
    while recording.bytes.len() < size {
        let alternating = if turn % 2 == 0 { 0x30 } else { 0x20 };
        match kind {
            "read" => recording.whole_disk(0x20, false),
            "write" => recording.whole_disk(0x30, false),
            "mixed" => recording.whole_disk(alternating, false),
            "single" => recording.sectors(alternating, turn / 2 % CAPACITY, 1, false),
            "poll" => recording.whole_disk(alternating, true),
            _ => return Err(format!("no kind {kind}; there are {}", KINDS.join(", "))),
        }
        turn += 1;
    }
    Ok(recording.bytes)
}

impl BenchRecording {
    fn send(&mut self, record: Record) {
        record.append_to(&mut self.bytes);
    }

    fn whole_disk(&mut self, code: u8, polled: bool) {
        self.sectors(code, 0, CAPACITY as u8, polled);
    }

    fn sectors(&mut self, code: u8, first: u32, count: u8, polled: bool) {
        let values = [count, first as u8, 0, 0, 0xA0 | LBA, code];
        for (register, value) in (2..).zip(values) {
            self.send(Record::WriteRegister(register, value));
        }
        for _ in 0..count {
            self.block(code, polled);
        }
    }

    /// Two status reads, as a driver that waits and then acknowledges, and all words.
    fn block(&mut self, code: u8, polled: bool) {
        self.send(Record::ReadRegister(8));
        self.send(Record::ReadRegister(7));
        for _ in 0..BLOCK_WORDS {
            if polled {
                self.send(Record::ReadRegister(7));
                if self.words_sent.is_multiple_of(4) {
                    self.send(Record::AskLine);
                }
            }
            self.words_sent += 1;
            let word = self.random.word();
            self.send(match code {
                0x20 => Record::ReadWord,
                _ => Record::WriteWord(word),
            });
        }
    }
}

#[cfg(test)]
mod tests {
    use super::*;
    use crate::recording::Recording;

    #[test]
    fn every_kind_gives_about_the_size_asked_for() {
        for kind in KINDS {
            let bytes = bench_recording(kind, 300_000).unwrap();
            assert!((300_000..500_000).contains(&bytes.len()), "{kind}");
            assert!(Recording::parse(&bytes).tail.is_empty());
        }
        assert!(bench_recording("other", 10).is_err());
    }

    #[test]
    fn a_read_recording_reads_all_words_with_two_status_reads_a_block() {
        let records = Recording::parse(&bench_recording("read", 2).unwrap()).records;
        let words = records.iter().filter(|one| **one == Record::ReadWord);
        assert_eq!(words.count(), 64 * 256);
        let looks = records
            .iter()
            .filter(|one| matches!(one, Record::ReadRegister(7 | 8)));
        assert_eq!(looks.count(), 64 * 2);
    }
}

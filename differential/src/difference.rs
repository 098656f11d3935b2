//! Where two replies part, and saying so.

use crate::programs::{Outcome, Program};
use crate::recording::{answer_at, describe_answer, Recording, ANSWER_BYTES};

/// How many records before the parting one are shown.
const RECORDS_SHOWN: usize = 24;

pub struct Difference {
    /// Index of the record whose answers differ; the number of records for the tail.
    pub record: usize,
    pub outcomes: [Outcome; 2],
}

/// The difference between two outcomes, a crash counting as one.
pub fn between(outcomes: [Outcome; 2]) -> Option<Difference> {
    let [first, second] = &outcomes;
    if first.reply == second.reply && first.failure.is_none() && second.failure.is_none() {
        return None;
    }
    let equal_bytes = first
        .reply
        .iter()
        .zip(&second.reply)
        .take_while(|(one, other)| one == other)
        .count();
    Some(Difference {
        record: equal_bytes.saturating_sub(1) / ANSWER_BYTES,
        outcomes,
    })
}

/// Runs both programs on a recording handed over `piece` bytes at a time.
pub fn run_both(
    programs: &[Program; 2],
    recording: &[u8],
    piece: usize,
) -> Result<[Outcome; 2], String> {
    let [first, second] = programs;
    Ok([first.run(recording, piece)?, second.run(recording, piece)?])
}

fn describe_record(recording: &Recording, index: usize) -> String {
    match recording.records.get(index) {
        Some(record) => record.describe(),
        None if index == recording.records.len() && !recording.tail.is_empty() => {
            format!("damaged rest of {} bytes", recording.tail.len())
        }
        None => "end of the recording".to_string(),
    }
}

/// The records up to the parting one, then both answers to it.
pub fn explain(recording: &Recording, difference: &Difference) -> String {
    let mut text = String::new();
    let parting = difference.record;
    let shown = parting.saturating_sub(RECORDS_SHOWN);
    if shown > 0 {
        text += &format!("  ... {shown} records before these\n");
    }
    for index in shown..=parting {
        let record = describe_record(recording, index);
        let answer = describe_answer(answer_at(&difference.outcomes[0].reply, index));
        let answer = if index < parting { &answer } else { "?" };
        text += &format!("  record {}: {record} -> {answer}\n", index + 1);
    }
    for (name, outcome) in ["A", "B"].iter().zip(&difference.outcomes) {
        let answer = describe_answer(answer_at(&outcome.reply, parting));
        let failure = outcome.failure.as_deref().unwrap_or("ended by itself");
        let bytes = outcome.reply.len();
        text += &format!("  {name}: {answer} (reply of {bytes} bytes, {failure})\n");
    }
    text
}

#[cfg(test)]
mod tests {
    use super::*;
    use crate::recording::Record;

    fn outcome(reply: &[u8]) -> Outcome {
        Outcome {
            reply: reply.to_vec(),
            failure: None,
        }
    }

    #[test]
    fn the_parting_record_is_found_and_named() {
        let one = outcome(&[1, 0, 3, 0, 0, 0x50, 0, 3, 0, 0, 0x50]);
        let other = outcome(&[1, 0, 3, 0, 0, 0x50, 0, 3, 0, 0, 0x51]);
        assert!(between([one.clone(), one.clone()]).is_none());
        let difference = between([one, other]).unwrap();
        assert_eq!(difference.record, 1);
        let recording = Recording::of(vec![Record::ReadRegister(8), Record::ReadRegister(7)]);
        let text = explain(&recording, &difference);
        assert!(text.contains("record 2: read register 7"));
        assert!(text.contains("A: answer 0, value 0050h"));
        assert!(text.contains("B: answer 0, value 0051h"));
    }

    #[test]
    fn a_crash_is_a_difference() {
        let mut crashed = outcome(&[1]);
        crashed.failure = Some("crashed".to_string());
        assert!(between([outcome(&[1]), crashed]).is_some());
    }
}

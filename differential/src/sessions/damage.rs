//! Damage to the end of a recording, one function for each kind of fault.

use crate::random::Random;
use crate::recording::{Recording, VERSION};

pub struct Damage {
    pub name: &'static str,
    weight: u32,
    apply: fn(&mut Random, &mut Recording),
}

const fn fault(name: &'static str, weight: u32, apply: fn(&mut Random, &mut Recording)) -> Damage {
    Damage {
        name,
        weight,
        apply,
    }
}

/// Those with many cases weigh more, so that each case is met in a full run.
pub const ALL_DAMAGE: [Damage; 11] = [
    fault("empty", 1, empty),
    fault("other version", 2, other_version),
    fault("cut in the length", 3, cut_in_the_length),
    fault("cut after the length", 3, cut_after_the_length),
    fault("cut in the payload", 4, cut_in_the_payload),
    fault("unknown kind", 8, unknown_kind),
    fault("zero length", 2, zero_length),
    fault("payload too short", 5, payload_too_short),
    fault("payload too long", 8, payload_too_long),
    fault("huge length, cut", 4, huge_length_cut),
    fault("huge length, whole", 8, huge_length_whole),
];

/// Damages the recording in one way; records after the fault must not be run.
pub fn damage(random: &mut Random, recording: &mut Recording) -> &'static str {
    let weights = ALL_DAMAGE.map(|damage| damage.weight);
    let chosen = &ALL_DAMAGE[random.weighted(&weights)];
    (chosen.apply)(random, recording);
    chosen.name
}

/// Payload lengths of kinds 01 to 07.
const PAYLOADS: [(u8, usize); 7] = [(1, 2), (2, 3), (3, 1), (4, 3), (5, 1), (6, 1), (7, 1)];

fn append_payload(random: &mut Random, recording: &mut Recording, kind: u8, length: usize) {
    recording.tail.extend((length as u16).to_be_bytes());
    if length > 0 {
        recording.tail.push(kind);
        recording.tail.extend((1..length).map(|_| random.byte()));
    }
}

fn append_good_records(random: &mut Random, recording: &mut Recording) {
    for _ in 0..random.below(4) {
        let (kind, length) = random.pick(&PAYLOADS);
        append_payload(random, recording, kind, length);
    }
}

fn empty(_: &mut Random, recording: &mut Recording) {
    recording.version = None;
    recording.records.clear();
}

fn other_version(random: &mut Random, recording: &mut Recording) {
    let drawn = random.byte();
    let version = random.pick(&[0, 2, 0xFF, drawn]);
    recording.version = Some(if version == VERSION { 0 } else { version });
    recording.tail = Recording::of(std::mem::take(&mut recording.records)).to_bytes()[1..].to_vec();
}

fn cut_in_the_length(random: &mut Random, recording: &mut Recording) {
    let high = random.byte();
    recording.tail.push(random.pick(&[0, 0, 1, high]));
}

fn cut_after_the_length(random: &mut Random, recording: &mut Recording) {
    recording.tail.extend([0, random.between(1, 3) as u8]);
}

fn cut_in_the_payload(random: &mut Random, recording: &mut Recording) {
    let (kind, length) = random.pick(&[(1, 2), (2, 3), (4, 3)]);
    append_payload(random, recording, kind, length);
    let kept = recording.tail.len() - random.between(1, length as u32 - 1) as usize;
    recording.tail.truncate(kept);
}

fn unknown_kind(random: &mut Random, recording: &mut Recording) {
    let drawn = random.between(11, 255) as u8;
    let kind = random.pick(&[0, 8, 9, 10, 0xFF, drawn]);
    let length = random.pick(&[1, 1, 1, 2, 3, 5]);
    append_payload(random, recording, kind, length);
    append_good_records(random, recording);
}

fn zero_length(random: &mut Random, recording: &mut Recording) {
    append_payload(random, recording, 0, 0);
    append_good_records(random, recording);
}

fn payload_too_short(random: &mut Random, recording: &mut Recording) {
    let (kind, length) = random.pick(&[(1, 1), (2, 1), (2, 2), (4, 1), (4, 2)]);
    append_payload(random, recording, kind, length);
    append_good_records(random, recording);
}

fn payload_too_long(random: &mut Random, recording: &mut Recording) {
    let (kind, length) = random.pick(&PAYLOADS);
    let extra = random.pick(&[1, 1, 2, 3, 253, 256, 300]);
    append_payload(random, recording, kind, length + extra);
    append_good_records(random, recording);
}

fn huge_length_cut(random: &mut Random, recording: &mut Recording) {
    let kind = random.pick(&[1, 2, 3, 4, 5, 6, 7]);
    let given = random.below(2000) as usize;
    append_payload(random, recording, kind, 65_535);
    recording.tail.truncate(2 + given);
}

/// Often only the length's high byte is wrong, its low byte right for the kind.
fn huge_length_whole(random: &mut Random, recording: &mut Recording) {
    let (kind, right) = random.pick(&PAYLOADS);
    let high = random.between(1, 255) as usize;
    let length = random.pick(&[0x0100 + right, 0x0100 + right, high * 256 + right, 0xFFFF]);
    append_payload(random, recording, kind, length);
    append_good_records(random, recording);
}

#[cfg(test)]
mod tests {
    use super::*;
    use crate::recording::Record;

    #[test]
    fn every_damage_leaves_something_that_does_not_parse() {
        for number in 0..400 {
            let mut random = Random::for_session(11, number);
            let mut recording = Recording::of(vec![Record::ReadWord; 3]);
            let name = damage(&mut random, &mut recording);
            let parsed = Recording::parse(&recording.to_bytes());
            let faulty = parsed.version != Some(VERSION) || !parsed.tail.is_empty();
            assert!(faulty, "{name} is no fault");
        }
    }
}

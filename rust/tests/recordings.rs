//! The recordings written by hand, whose replies come from the papers: record by record, and with
//! data words that stand side by side passed in bulk.

mod common;

use common::action::{on_device, Action, UNTOUCHED};
use std::fs;
use std::path::Path;
use thinnarom::{Device, Geometry, Identity, Setup};

/// The replay's disk: 4 x 2 x 8, spaces for identity, zero master password, zero sectors.
fn disk() -> (Device, Vec<u8>) {
    let geometry = Geometry {
        cylinders: 4,
        heads: 2,
        sectors_per_track: 8,
    };
    let identity = &Identity::new("", "", "").unwrap();
    let setup = Setup {
        geometry,
        identity,
        master_password: &[0; 32],
    };
    (
        Device::new(&setup).unwrap(),
        vec![0; geometry.sector_bytes()],
    )
}

/// The records up to the first fault.
fn actions(recording: &[u8]) -> Vec<Action> {
    let mut actions = Vec::new();
    let [1, rest @ ..] = recording else {
        return actions;
    };
    let mut rest = rest;
    while let [0, length, more @ ..] = rest {
        let action = match more.get(..usize::from(*length)) {
            Some([1, n]) => Action::ReadRegister(*n),
            Some([2, n, v]) => Action::WriteRegister(*n, *v),
            Some([3]) => Action::ReadWord,
            Some([4, high, low]) => Action::WriteWord(u16::from_be_bytes([*high, *low])),
            Some([5]) => Action::HardwareReset,
            Some([6]) => Action::PowerOn,
            Some([7]) => Action::Line,
            _ => break,
        };
        actions.push(action);
        rest = &more[usize::from(*length)..];
    }
    actions
}

/// Answer and value of each record up to the first fault.
fn replies(reply: &[u8]) -> Vec<(u32, u32)> {
    let records = reply[1..].chunks_exact(5);
    let replies = records.map(|record| (record[2], u16::from_be_bytes([record[3], record[4]])));
    replies
        .map(|(answer, value)| (answer.into(), value.into()))
        .collect()
}

fn each_recording(mut check: impl FnMut(&str, Vec<Action>, Vec<(u32, u32)>)) {
    let folder = Path::new(env!("CARGO_MANIFEST_DIR")).join("../recordings");
    let mut seen = 0;
    for entry in fs::read_dir(folder).unwrap() {
        let path = entry.unwrap().path();
        if path.extension().is_some_and(|extension| extension == "rec") {
            let reply = fs::read(path.with_extension("reply")).unwrap();
            let actions = actions(&fs::read(&path).unwrap());
            check(&path.to_string_lossy(), actions, replies(&reply));
            seen += 1;
        }
    }
    assert!(seen > 100, "{seen} recordings");
}

#[test]
fn each_record_has_the_papers_reply() {
    each_recording(|name, actions, replies| {
        let (mut device, mut sectors) = disk();
        assert_eq!(actions.len(), replies.len(), "{name}");
        for (number, (action, reply)) in actions.iter().zip(replies).enumerate() {
            let got = on_device(&mut device, &mut sectors, action).reply;
            assert_eq!(
                (got.answer, got.value),
                reply,
                "{name}, record {number}: {action:02X?}"
            );
        }
    });
}

/// How many records from here on are data words of one direction.
fn run_of_words(actions: &[Action]) -> usize {
    let same = |action: &&Action| match actions[0] {
        Action::ReadWord => matches!(action, Action::ReadWord),
        Action::WriteWord(_) => matches!(action, Action::WriteWord(_)),
        _ => false,
    };
    actions.iter().take_while(same).count()
}

/// A run of data words as one call, and what it has to give.
fn as_bulk(run: &[Action], replies: &[(u32, u32)]) -> (Action, (u32, u32), Vec<u8>) {
    let passed = replies
        .iter()
        .take_while(|(answer, _)| *answer == 0)
        .count();
    let reply = if passed == 0 {
        replies[0]
    } else {
        (0, passed as u32)
    };
    if let Action::ReadWord = run[0] {
        let words = replies[..passed].iter().map(|(_, value)| *value as u16);
        let mut room: Vec<u8> = words.flat_map(u16::to_le_bytes).collect();
        room.resize(2 * run.len(), UNTOUCHED);
        return (Action::ReadWords(2 * run.len()), reply, room);
    }
    let word = |action: &Action| match action {
        Action::WriteWord(word) => word.to_le_bytes(),
        _ => unreachable!("words of one direction"),
    };
    (
        Action::WriteWords(run.iter().flat_map(word).collect()),
        reply,
        Vec::new(),
    )
}

#[test]
fn data_words_in_bulk_have_the_papers_replies() {
    let mut bulk_calls = 0;
    each_recording(|name, actions, replies| {
        let (mut device, mut sectors) = disk();
        let mut at = 0;
        while at < actions.len() {
            let run = run_of_words(&actions[at..]);
            let (action, reply, room) = match run {
                0 => (actions[at].clone(), replies[at], Vec::new()),
                _ => as_bulk(&actions[at..at + run], &replies[at..at + run]),
            };
            let got = on_device(&mut device, &mut sectors, &action);
            assert_eq!(
                (got.reply.answer, got.reply.value),
                reply,
                "{name}, record {at}: {action:02X?}"
            );
            assert_eq!(got.room, room, "{name}, record {at}");
            bulk_calls += usize::from(run > 0);
            at += run.max(1);
        }
    });
    assert!(bulk_calls > 500, "{bulk_calls} bulk calls");
}

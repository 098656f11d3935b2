//! Running many sessions through both programs and comparing their replies.

use crate::coverage::{with_commas, Coverage};
use crate::difference::{between, explain, run_both};
use crate::programs::Program;
use crate::recording::Recording;
use crate::sessions::session;
use crate::shrink::shrink;
use std::fs;
use std::path::{Path, PathBuf};
use std::sync::atomic::{AtomicBool, AtomicU64, Ordering};
use std::sync::Mutex;
use std::thread;
use std::time::Instant;

/// A run this long must have reached every class of the coverage table.
const FULL_RUN: u64 = 2_000;
const PROGRESS_LINES: u64 = 20;

pub struct Plan {
    pub seed: u64,
    pub count: u64,
    pub programs: [Program; 2],
    pub keep: PathBuf,
    pub workers: usize,
}

struct Progress {
    started: Instant,
    sessions: u64,
    records: u64,
    equal: u64,
    different: Vec<u64>,
    errors: Vec<String>,
    coverage: Coverage,
}

impl Progress {
    /// A run before its first session.
    fn new() -> Self {
        Progress {
            started: Instant::now(),
            sessions: 0,
            records: 0,
            equal: 0,
            different: Vec::new(),
            errors: Vec::new(),
            coverage: Coverage::new(),
        }
    }
}

pub enum Verdict {
    Equal,
    Different,
    Unreached,
}

pub fn compare(plan: &Plan) -> Result<Verdict, String> {
    let progress = Mutex::new(Progress::new());
    let next = AtomicU64::new(0);
    let stop = AtomicBool::new(false);
    thread::scope(|scope| {
        for _ in 0..plan.workers {
            scope.spawn(|| run_sessions(plan, &next, &stop, &progress));
        }
    });
    let progress = progress.into_inner().map_err(|_| "a worker panicked")?;
    if let Some(error) = progress.errors.first() {
        return Err(error.clone());
    }
    match progress.different.iter().min() {
        None => println!("{}", progress.coverage.table()),
        Some(number) => report_difference(plan, *number)?,
    }
    println!("{}", summary(plan, &progress));
    Ok(verdict(plan, &progress))
}

/// Takes session after session in order until all are done or one shows a difference.
fn run_sessions(plan: &Plan, next: &AtomicU64, stop: &AtomicBool, progress: &Mutex<Progress>) {
    while !stop.load(Ordering::Relaxed) {
        let number = next.fetch_add(1, Ordering::Relaxed);
        if number >= plan.count {
            return;
        }
        let made = session(plan.seed, number);
        let bytes = made.recording.to_bytes();
        let outcome = run_both(&plan.programs, &bytes, piece_size(number, bytes.len()));
        let Ok(mut progress) = progress.lock() else {
            return;
        };
        progress.sessions += 1;
        progress.records += made.recording.records.len() as u64;
        match outcome {
            Err(error) => progress.errors.push(error),
            Ok(outcomes) => {
                progress.coverage.add_session(&made, &outcomes[0].reply);
                match between(outcomes) {
                    None => progress.equal += 1,
                    Some(_) => progress.different.push(number),
                }
            }
        }
        if !(progress.errors.is_empty() && progress.different.is_empty()) {
            stop.store(true, Ordering::Relaxed);
        }
        progress.print_sometimes(plan.count);
    }
}

/// One session in eight comes in pieces, so that records fall between two reads of the program.
fn piece_size(number: u64, length: usize) -> usize {
    /// Keeps a long session from taking one write for every few bytes.
    const MOST_PIECES: usize = 4_000;
    match number % 8 {
        0 => (number as usize / 8 % 97 + 1).max(length / MOST_PIECES),
        _ => usize::MAX,
    }
}

impl Progress {
    fn print_sometimes(&self, count: u64) {
        let step = (count / PROGRESS_LINES).max(1);
        if self.sessions.is_multiple_of(step) {
            println!(
                "{} sessions, {} records, {} equal, {} s",
                with_commas(self.sessions),
                with_commas(self.records),
                with_commas(self.equal),
                self.started.elapsed().as_secs()
            );
        }
    }
}

fn summary(plan: &Plan, progress: &Progress) -> String {
    format!(
        "{} sessions, {} records, {} differences, seed {}, {} s",
        progress.sessions,
        with_commas(progress.records),
        progress.different.len(),
        plan.seed,
        progress.started.elapsed().as_secs()
    )
}

fn verdict(plan: &Plan, progress: &Progress) -> Verdict {
    if !progress.different.is_empty() {
        return Verdict::Different;
    }
    let missing = progress.coverage.missing();
    if plan.count < FULL_RUN || missing.is_empty() {
        return Verdict::Equal;
    }
    for class in missing {
        println!("never reached: {class}");
    }
    Verdict::Unreached
}

/// Shrinks a session that differs, stores it and says where the replies part.
fn report_difference(plan: &Plan, number: u64) -> Result<(), String> {
    println!("session {number} of seed {} differs; shrinking", plan.seed);
    let recording = session(plan.seed, number).recording;
    let path = plan
        .keep
        .join(format!("difference-{}-{number}.rec", plan.seed));
    let piece = piece_size(number, recording.to_bytes().len());
    shrink_and_explain(recording, &plan.programs, piece, &path)
}

/// Shrinks a recording on which two programs differ, writes it to `path` and explains it.
pub fn shrink_and_explain(
    recording: Recording,
    programs: &[Program; 2],
    piece: usize,
    path: &Path,
) -> Result<(), String> {
    let judge = |candidate: &Recording| {
        let outcomes = run_both(programs, &candidate.to_bytes(), piece).ok()?;
        between(outcomes).map(|difference| difference.record)
    };
    let small = shrink(recording, judge);
    let bytes = small.to_bytes();
    let Some(difference) = between(run_both(programs, &bytes, piece)?) else {
        return Err("no difference, or one that does not repeat".to_string());
    };
    if let Some(folder) = path.parent() {
        fs::create_dir_all(folder).map_err(|error| error.to_string())?;
    }
    fs::write(path, &bytes).map_err(|error| format!("{}: {error}", path.display()))?;
    println!(
        "{}: {} records, {} bytes",
        path.display(),
        small.records.len(),
        bytes.len()
    );
    print!("{}", explain(&small, &difference));
    Ok(())
}

#[cfg(test)]
mod tests {
    use super::*;

    /// Two stand-ins that echo, the second turning one byte value into another.
    fn planted(folder: &str, from: &str, to: &str) -> Plan {
        let mut second = Program::at("tr");
        second.arguments = vec![from.into(), to.into()];
        Plan {
            seed: 7,
            count: 20,
            programs: [Program::at("cat"), second],
            keep: std::env::temp_dir().join(format!("{folder}-{}", std::process::id())),
            workers: 2,
        }
    }

    #[test]
    fn equal_programs_are_equal() {
        let plan = planted("differential-equal", "\\106", "\\106");
        assert!(matches!(compare(&plan), Ok(Verdict::Equal)));
        assert!(!plan.keep.exists());
    }

    #[test]
    fn a_planted_difference_is_found_shrunk_and_kept() {
        let plan = planted("differential-planted", "\\362", "\\363");
        assert!(matches!(compare(&plan), Ok(Verdict::Different)));
        let kept: Vec<_> = fs::read_dir(&plan.keep).unwrap().collect();
        assert_eq!(kept.len(), 1);
        let path = kept[0].as_ref().unwrap().path();
        let recording = Recording::parse(&fs::read(&path).unwrap());
        assert!(recording.records.len() <= 1);
        assert!(recording.to_bytes().contains(&0xF2));
        fs::remove_dir_all(&plan.keep).unwrap();
    }

    #[test]
    fn a_full_run_that_reaches_nothing_fails() {
        let mut plan = planted("differential-unreached", "\\106", "\\106");
        plan.count = FULL_RUN;
        assert!(matches!(
            verdict(&plan, &Progress::new()),
            Verdict::Unreached
        ));
    }
}

//! Compares two replay programs over generated guest sessions, and makes timing recordings.

mod bench;
mod compare;
mod coverage;
mod difference;
mod guest;
mod intentions;
mod lock_memory;
mod memory;
mod programs;
mod random;
mod recording;
mod sessions;
mod shrink;
mod watcher;

use compare::{compare, shrink_and_explain, Plan, Verdict};
use programs::Program;
use recording::Recording;
use std::fs;
use std::io::Write;
use std::path::PathBuf;
use std::process::ExitCode;

const USAGE: &str = "usage:
  differential compare --seed S --count N PROGRAM_A PROGRAM_B [--keep DIR] [--workers W]
  differential write --seed S --session K
  differential shrink FILE PROGRAM_A PROGRAM_B
  differential bench-recording read|write|mixed|single|poll BYTES
compare exits with 1 at a difference and with 2 if a run of 2,000 or more left a class unreached.";

/// Arguments split into `--name value` pairs and the rest.
struct Arguments {
    options: Vec<(String, String)>,
    plain: Vec<String>,
}

impl Arguments {
    fn parse(given: impl Iterator<Item = String>) -> Result<Arguments, String> {
        let mut arguments = Arguments {
            options: Vec::new(),
            plain: Vec::new(),
        };
        let mut given = given;
        while let Some(argument) = given.next() {
            match argument.strip_prefix("--") {
                None => arguments.plain.push(argument),
                Some(name) => {
                    let value = given.next().ok_or(format!("--{name} needs a value"))?;
                    arguments.options.push((name.to_string(), value));
                }
            }
        }
        Ok(arguments)
    }

    fn allow(&self, names: &[&str]) -> Result<(), String> {
        match self
            .options
            .iter()
            .find(|(name, _)| !names.contains(&name.as_str()))
        {
            Some((name, _)) => Err(format!("no option --{name} here\n{USAGE}")),
            None => Ok(()),
        }
    }

    fn text(&self, name: &str) -> Option<&str> {
        let found = self.options.iter().find(|(known, _)| known == name);
        found.map(|(_, value)| value.as_str())
    }

    fn number(&self, name: &str, otherwise: Option<u64>) -> Result<u64, String> {
        match (self.text(name), otherwise) {
            (Some(value), _) => as_number(value),
            (None, Some(number)) => Ok(number),
            (None, None) => Err(format!("--{name} is missing\n{USAGE}")),
        }
    }
}

fn as_number(text: &str) -> Result<u64, String> {
    text.parse().map_err(|_| format!("{text} is no number"))
}

fn run_compare(arguments: &Arguments, paths: [&str; 2]) -> Result<ExitCode, String> {
    arguments.allow(&["seed", "count", "keep", "workers"])?;
    let plan = Plan {
        seed: arguments.number("seed", None)?,
        count: arguments.number("count", None)?,
        programs: paths.map(Program::at),
        keep: PathBuf::from(arguments.text("keep").unwrap_or(".")),
        workers: arguments.number("workers", Some(2))?.max(1) as usize,
    };
    Ok(match compare(&plan)? {
        Verdict::Equal => ExitCode::SUCCESS,
        Verdict::Different => ExitCode::from(1),
        Verdict::Unreached => ExitCode::from(2),
    })
}

/// The small recording goes beside the given one.
fn run_shrink(file: &str, paths: [&str; 2]) -> Result<ExitCode, String> {
    let bytes = fs::read(file).map_err(|error| format!("{file}: {error}"))?;
    let small = PathBuf::from(file).with_extension("small.rec");
    let programs = paths.map(Program::at);
    shrink_and_explain(Recording::parse(&bytes), &programs, usize::MAX, &small)?;
    Ok(ExitCode::from(1))
}

fn write_out(bytes: &[u8]) -> Result<ExitCode, String> {
    let mut output = std::io::stdout().lock();
    match output.write_all(bytes).and_then(|()| output.flush()) {
        Ok(()) => Ok(ExitCode::SUCCESS),
        Err(error) => Err(error.to_string()),
    }
}

fn run(arguments: &Arguments) -> Result<ExitCode, String> {
    let plain: Vec<&str> = arguments.plain.iter().map(String::as_str).collect();
    match plain[..] {
        ["compare", first, second] => run_compare(arguments, [first, second]),
        ["write"] => {
            arguments.allow(&["seed", "session"])?;
            let seed = arguments.number("seed", None)?;
            let number = arguments.number("session", None)?;
            write_out(&sessions::session(seed, number).recording.to_bytes())
        }
        ["shrink", file, first, second] => {
            arguments.allow(&[])?;
            run_shrink(file, [first, second])
        }
        ["bench-recording", kind, size] => {
            arguments.allow(&[])?;
            write_out(&bench::bench_recording(kind, as_number(size)? as usize)?)
        }
        _ => Err(USAGE.to_string()),
    }
}

fn main() -> ExitCode {
    let parsed = Arguments::parse(std::env::args().skip(1));
    parsed
        .and_then(|arguments| run(&arguments))
        .unwrap_or_else(|problem| {
            eprintln!("{problem}");
            ExitCode::from(3)
        })
}

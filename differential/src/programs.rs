//! Running a replay program as a child: recording in, reply out.

use std::ffi::OsString;
use std::io::{Read, Write};
use std::process::{Child, Command, ExitStatus, Stdio};
use std::sync::mpsc;
use std::thread;
use std::time::Duration;

/// Far above any session's time, so only a program that hangs meets it.
const TIME_LIMIT: Duration = Duration::from_secs(60);

/// The exit code of a Rust program that panicked.
const PANIC_CODE: i32 = 101;

#[derive(Clone, Debug)]
pub struct Program {
    pub path: OsString,
    pub arguments: Vec<OsString>,
}

#[derive(Clone, Debug, PartialEq, Eq)]
pub struct Outcome {
    pub reply: Vec<u8>,
    /// Why the program is to blame apart from its reply: a crash or no end.
    pub failure: Option<String>,
}

impl Program {
    pub fn at(path: impl Into<OsString>) -> Program {
        Program {
            path: path.into(),
            arguments: Vec::new(),
        }
    }

    fn start(&self) -> Result<Child, String> {
        Command::new(&self.path)
            .args(&self.arguments)
            .stdin(Stdio::piped())
            .stdout(Stdio::piped())
            .stderr(Stdio::null())
            .spawn()
            .map_err(|error| format!("cannot start {}: {error}", self.path.to_string_lossy()))
    }

    /// Runs the program on a recording handed over `piece` bytes at a time.
    pub fn run(&self, recording: &[u8], piece: usize) -> Result<Outcome, String> {
        let mut child = self.start()?;
        let (Some(mut input), Some(mut output)) = (child.stdin.take(), child.stdout.take()) else {
            return Err("a child without pipes".to_string());
        };
        let recording = recording.to_vec();
        let writer = thread::spawn(move || {
            let mut pieces = recording.chunks(piece.max(1));
            // A program may stop reading at a fault, so a closed pipe is no error here.
            let _ = pieces.try_for_each(|bytes| input.write_all(bytes));
        });
        let (sender, receiver) = mpsc::channel();
        let reader = thread::spawn(move || {
            let mut reply = Vec::new();
            let _ = output.read_to_end(&mut reply);
            let _ = sender.send(reply);
        });
        let reply = receiver.recv_timeout(TIME_LIMIT).ok();
        if reply.is_none() {
            let _ = child.kill();
        }
        let status = child.wait().map_err(|error| error.to_string())?;
        let _ = (writer.join(), reader.join());
        Ok(Outcome {
            failure: failure_of(reply.is_some(), status),
            reply: reply.unwrap_or_default(),
        })
    }
}

fn failure_of(ended: bool, status: ExitStatus) -> Option<String> {
    if !ended {
        return Some(format!("no end within {} s", TIME_LIMIT.as_secs()));
    }
    match status.code() {
        None => Some(format!("crashed: {status}")),
        Some(PANIC_CODE) => Some("panicked".to_string()),
        Some(_) => None,
    }
}

#[cfg(test)]
mod tests {
    use super::*;

    #[test]
    fn a_reply_larger_than_a_pipe_comes_back_whole() {
        let recording = vec![0x5A; 3_000_000];
        for piece in [1_000, usize::MAX] {
            let outcome = Program::at("cat").run(&recording, piece).unwrap();
            assert_eq!(outcome.reply, recording);
            assert_eq!(outcome.failure, None);
        }
    }

    #[test]
    fn a_program_that_reads_nothing_is_no_error() {
        let outcome = Program::at("true").run(&vec![1; 1_000_000], 4_096).unwrap();
        assert_eq!(outcome.reply, Vec::<u8>::new());
        assert!(Program::at("no-such-program").run(&[], 1).is_err());
    }
}

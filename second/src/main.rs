//! The replay program: a recording on standard input, its reply on standard output.

#![forbid(unsafe_code)]

use std::fs::File;
use std::io::{stdin, stdout, Result};
use std::os::fd::AsFd;
use std::process::ExitCode;

/// Document 01, Replay: a fault of the recording is part of the reply; only input or output that
/// fails is a failure of the program.
fn main() -> ExitCode {
    match run() {
        Ok(()) => ExitCode::SUCCESS,
        Err(_) => ExitCode::FAILURE,
    }
}

/// Plain files over both streams, since the library's own hold output back until a line ends.
fn run() -> Result<()> {
    let input = File::from(stdin().as_fd().try_clone_to_owned()?);
    let output = File::from(stdout().as_fd().try_clone_to_owned()?);
    second::replay(input, output)
}

//! Document 01, Replay, as the program runs it: streams, faults and exit codes.

use std::fs::File;
use std::io::{Read, Write};
use std::process::{Child, Command, Stdio};
use std::time::{Duration, Instant};

fn program(input: Stdio) -> Child {
    Command::new(env!("CARGO_BIN_EXE_second"))
        .stdin(input)
        .stdout(Stdio::piped())
        .stderr(Stdio::piped())
        .spawn()
        .unwrap()
}

/// The exit code, what is left of the reply and the standard error.
fn finish(child: Child) -> (Option<i32>, Vec<u8>, Vec<u8>) {
    let output = child.wait_with_output().unwrap();
    (output.status.code(), output.stdout, output.stderr)
}

#[test]
fn a_recording_on_standard_input_has_its_reply_on_standard_output() {
    let mut child = program(Stdio::piped());
    child
        .stdin
        .take()
        .unwrap()
        .write_all(&[1, 0, 2, 1, 7])
        .unwrap();
    assert_eq!(finish(child), (Some(0), vec![1, 0, 3, 0, 0, 0x50], vec![]));
}

#[test]
fn a_fault_ends_with_exit_code_0() {
    assert_eq!(
        finish(program(Stdio::null())),
        (Some(0), vec![1, 0, 1, 5], vec![])
    );
}

#[test]
fn a_fault_ends_the_program_while_the_input_is_still_open() {
    let mut child = program(Stdio::piped());
    let mut input = child.stdin.take().unwrap();
    input.write_all(&[1, 0, 1, 7, 0, 9]).unwrap();
    let reply = vec![1, 0, 3, 0, 0, 0, 0, 1, 5];
    assert_eq!(finish(child), (Some(0), reply, vec![]));
    drop(input);
}

#[test]
fn slow_input_is_replied_to_before_more_comes() {
    let mut child = program(Stdio::piped());
    let mut input = child.stdin.take().unwrap();
    for (part, expected) in [
        (&[1, 0, 2][..], &[1][..]),
        (&[1, 7, 0], &[0, 3, 0, 0, 0x50]),
        (&[1, 7], &[0, 3, 0, 0, 0]),
    ] {
        input.write_all(part).unwrap();
        let mut reply = vec![0; expected.len()];
        child
            .stdout
            .as_mut()
            .unwrap()
            .read_exact(&mut reply)
            .unwrap();
        assert_eq!(reply, expected);
    }
    drop(input);
    assert_eq!(finish(child), (Some(0), vec![], vec![]));
}

/// Records are sent until the program is gone: a program that another test starts at that moment has the reading end
/// too until it runs its own code, and takes the first replies.
#[test]
fn a_closed_output_ends_quietly_with_exit_code_1() {
    let mut child = program(Stdio::piped());
    drop(child.stdout.take());
    let mut input = child.stdin.take().unwrap();
    input.write_all(&[1]).unwrap();
    let began = Instant::now();
    while input.write_all(&[0, 1, 7]).is_ok() && began.elapsed() < Duration::from_secs(10) {}
    drop(input);
    assert_eq!(finish(child), (Some(1), vec![], vec![]));
}

#[test]
fn a_read_error_ends_quietly_with_exit_code_1() {
    let directory = File::open(".").unwrap();
    let (code, _, errors) = finish(program(directory.into()));
    assert_eq!((code, errors), (Some(1), vec![]));
}

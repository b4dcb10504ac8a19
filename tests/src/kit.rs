//! The kit program as a process.

use crate::c::{root, text};
use std::{
    io::{ErrorKind, Write},
    path::PathBuf,
    process::{Command, Output, Stdio},
    thread,
    time::Duration,
};

/// The program, as `./build kit` leaves it.
fn program() -> PathBuf {
    root().join("target/bin/kit")
}

pub fn kit() -> Command {
    Command::new(program())
}

/// The program with no more than this much stack, in KiB. The environment would take some of it.
pub fn kit_within(stack: usize) -> Command {
    let mut command = Command::new("/bin/sh");
    command.args(["-c", "ulimit -s \"$1\" && exec \"$0\""]).arg(program()).arg(stack.to_string()).env_clear();
    command
}

/// What the program writes for an input: to standard output alone, with a good end.
#[track_caller]
pub fn run(input: &[u8]) -> String {
    good(&fed(&mut kit(), input, &[input.len()]))
}

/// The same for an input that comes in pieces.
#[track_caller]
pub fn run_in_pieces(input: &[u8], lengths: &[usize]) -> String {
    good(&fed(&mut kit(), input, lengths))
}

/// What a run that has to end well wrote.
#[track_caller]
pub fn good(output: &Output) -> String {
    assert!(output.status.success() && output.stderr.is_empty(), "{output:?}");
    text(output)
}

/// Runs a command on an input that comes by a pipe, in pieces of these lengths, one after the other and again from the
/// first, with a pause between two: a read is short. The command need not read what is behind a fault.
pub fn fed(command: &mut Command, input: &[u8], lengths: &[usize]) -> Output {
    command.stdin(Stdio::piped()).stdout(Stdio::piped()).stderr(Stdio::piped());
    let mut child = command.spawn().unwrap_or_else(|error| panic!("{command:?}: {error}"));
    let mut pipe = child.stdin.take().expect("there is a pipe");
    let (mut rest, mut lengths) = (input, lengths.iter().cycle());
    while !rest.is_empty() {
        let (piece, after) = rest.split_at(rest.len().min(*lengths.next().expect("a length is named")));
        rest = after;
        match pipe.write_all(piece) {
            Ok(()) if rest.is_empty() => {}
            Ok(()) => thread::sleep(Duration::from_micros(50)),
            Err(error) => {
                assert_eq!(error.kind(), ErrorKind::BrokenPipe, "{error}");
                break;
            }
        }
    }
    drop(pipe);
    child.wait_with_output().expect("the command ends")
}

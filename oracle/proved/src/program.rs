//! The proved program, as `sample/build.sh` writes it.

use std::io::{ErrorKind, Write};
use std::process::{Command, Stdio};
use std::thread;

const PROGRAM: &str = concat!(env!("CARGO_MANIFEST_DIR"), "/../../target/bin/hallroute");

/// What the program prints for an input.
pub fn hallroute(input: &[u8]) -> Vec<u8> {
    let mut child = Command::new(PROGRAM)
        .stdin(Stdio::piped())
        .stdout(Stdio::piped())
        .stderr(Stdio::piped())
        .spawn()
        .expect("run sample/build.sh first");
    let mut stdin = child.stdin.take().expect("standard input is a pipe");
    // Both pipes may fill up, so the input goes in while the lines come out.
    let output = thread::scope(|scope| {
        scope.spawn(move || match stdin.write_all(input) {
            // The program stops reading an input that is too long.
            Err(error) if error.kind() == ErrorKind::BrokenPipe => {}
            written => written.expect("the program takes its input"),
        });
        child.wait_with_output().expect("the program ends")
    });
    let status = output.status;
    assert!(status.success() && output.stderr.is_empty(), "{status}");
    output.stdout
}

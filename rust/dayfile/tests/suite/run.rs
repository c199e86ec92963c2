//! Programs as a user meets them.

use std::io::Write;
use std::process::{Command, Output, Stdio};

/// What a program comes to with this standard input.
pub(crate) fn run(program: &mut Command, input: &[u8]) -> Output {
    let piped = program.stdin(Stdio::piped()).stdout(Stdio::piped()).stderr(Stdio::piped());
    let mut child = piped.spawn().unwrap();
    // It may have ended before all of its input is written.
    let _ = child.stdin.take().unwrap().write_all(input);
    child.wait_with_output().unwrap()
}

/// What a program writes to standard output, having ended well.
pub(crate) fn output(program: &mut Command, input: &[u8]) -> Vec<u8> {
    let Output { status, stdout, stderr } = run(program, input);
    assert!(status.success(), "{status}: {}", String::from_utf8_lossy(&stderr));
    assert_eq!(stderr, b"");
    stdout
}

//! The C examples are compiled against include/silttongs.h and the static library, and run.

use std::path::Path;
use std::process::Command;

#[test]
fn the_crossing_answers_as_written() {
    assert_eq!(printed("crossing"), include_str!("../../../../examples/c/crossing.out"));
}

#[test]
fn the_club_day_answers_as_written() {
    assert_eq!(printed("club"), include_str!("../../../../examples/c/club.out"));
}

#[test]
fn the_protest_answers_as_written() {
    assert_eq!(printed("protest"), include_str!("../../../../examples/c/protest.out"));
}

#[test]
fn the_federation_day_answers_as_written() {
    assert_eq!(printed("federation"), include_str!("../../../../examples/c/federation.out"));
}

/// What the example of this name prints.
fn printed(name: &str) -> String {
    let root = Path::new(env!("CARGO_MANIFEST_DIR")).join("../..");
    let program = Path::new(env!("CARGO_TARGET_TMPDIR")).join(name);
    let built = Command::new("cc")
        .args(["-std=c11", "-pedantic", "-Wall", "-Wextra", "-Werror", "-O1", "-I"])
        .arg(root.join("include"))
        .arg(root.join(format!("examples/c/{name}.c")))
        .arg(env!("SILTTONGS_ARCHIVE"))
        .arg("-o")
        .arg(&program)
        .output()
        .expect("cc, a C compiler, is on PATH");
    assert!(built.status.success(), "{}", String::from_utf8_lossy(&built.stderr));

    let run = Command::new(&program).output().unwrap();
    assert!(run.status.success());
    String::from_utf8(run.stdout).unwrap()
}

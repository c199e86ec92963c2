//! The same days in SQLite, where it is installed: `sqlite.c` is compiled, given the cases, and asked
//! for its times.

use std::collections::BTreeMap;
use std::fmt::Write as _;
use std::io::Write as _;
use std::path::Path;
use std::process::{Command, Stdio};

use calls::{Call, Line, REVISIONS};

/// Nanoseconds and the value of the last call, by the name of the case; none without SQLite. Cases
/// with calls that `sqlite.c` does not know are left out.
pub(crate) fn times<'a>(
    cases: impl Iterator<Item = (&'a str, &'a [Call], &'a [Call])>,
) -> Option<BTreeMap<String, (u64, u64)>> {
    let program = Path::new(env!("CARGO_TARGET_TMPDIR")).join("sqlite");
    let source = Path::new(env!("CARGO_MANIFEST_DIR")).join("benches/speed/sqlite.c");
    let mut compile = Command::new("cc");
    compile.arg("-O3").arg("-o").arg(&program).arg(source).arg("-lsqlite3");
    let compiled = compile.stderr(Stdio::null()).status().is_ok_and(|status| status.success());
    if !compiled {
        return None;
    }
    let script: String = cases.filter_map(|(name, day, timed)| script(name, day, timed)).collect();
    let mut child = Command::new(program)
        .stdin(Stdio::piped())
        .stdout(Stdio::piped())
        .spawn()
        .expect("what was compiled runs");
    let mut stdin = child.stdin.take().expect("it is piped");
    stdin.write_all(script.as_bytes()).expect("it reads all cases");
    drop(stdin);
    let output = child.wait_with_output().expect("it ends");
    assert!(output.status.success(), "sqlite.c failed");
    let text = String::from_utf8(output.stdout).expect("it writes the names that it was given");
    Some(text.lines().map(timed).collect())
}

/// A line of what `sqlite.c` writes.
fn timed(line: &str) -> (String, (u64, u64)) {
    let mut words = line.splitn(3, '\t');
    let mut number = || words.next().and_then(|word| word.parse().ok()).expect("a number");
    let times = (number(), number());
    (words.next().expect("a name").to_string(), times)
}

/// A case as `sqlite.c` reads it.
fn script(name: &str, day: &[Call], timed: &[Call]) -> Option<String> {
    let is_fork = |call: &&Call| matches!(call, Call::Fork { .. });
    let forks = day.iter().chain(timed).filter(is_fork).count();
    if forks >= usize::from(REVISIONS) {
        return None;
    }
    let mut text = format!("case {name}\n");
    day.iter().try_for_each(|call| put(&mut text, call))?;
    text += "timed\n";
    timed.iter().try_for_each(|call| put(&mut text, call))?;
    Some(text + "end\n")
}

/// A call, by its first letter and its numbers.
fn put(text: &mut String, call: &Call) -> Option<()> {
    match *call {
        Call::Update { client, revision, kind, bib, v } => {
            writeln!(text, "u {client} {revision} {kind} {bib} {v}").ok()
        }
        Call::Bundle { client, revision, ref records } => {
            let (records, _) = records.as_chunks();
            for &record in records {
                let Line { kind, bib, v, .. } = Line::from_bytes(record);
                put(text, &Call::Update { client, revision, kind, bib, v })?;
            }
            put(text, &Call::Yield { client })
        }
        Call::Yield { client } => writeln!(text, "y {client}").ok(),
        Call::Fork { revision } => writeln!(text, "f {revision}").ok(),
        Call::Join { joiner, joinee } => writeln!(text, "j {joiner} {joinee}").ok(),
        Call::Query { revision, bib, .. } => writeln!(text, "q {revision} {bib}").ok(),
        Call::List { revision, .. } => writeln!(text, "l {revision}").ok(),
        _ => None,
    }
}

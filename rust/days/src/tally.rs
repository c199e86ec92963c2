//! The figures of a long run: what its tests drew and met, counted as they go.
//!
//! They are added to the file that the environment variable `DAYS_TALLY` names; `rust/load` adds them up.
//! Without the variable nothing is written.

use std::collections::BTreeMap;
use std::fs::{File, OpenOptions};
use std::io::Write;
use std::sync::{LazyLock, Mutex, MutexGuard};

/// What is counted, and of which sort.
type Key = (&'static str, &'static str);

/// Counted since they were last told.
#[derive(Default)]
struct Figures {
    sums: BTreeMap<Key, u64>,
    most: BTreeMap<Key, u64>,
}

static FIGURES: Mutex<Figures> =
    Mutex::new(Figures { sums: BTreeMap::new(), most: BTreeMap::new() });

static FILE: LazyLock<Option<File>> = LazyLock::new(|| {
    let path = std::env::var_os("DAYS_TALLY")?;
    Some(OpenOptions::new().append(true).open(path).expect("DAYS_TALLY names a file"))
});

/// A test that failed has no figures, and the others go on.
fn figures() -> MutexGuard<'static, Figures> {
    FIGURES.lock().unwrap_or_else(|poisoned| poisoned.into_inner())
}

/// So many more of something.
pub fn count(what: &'static str, sort: &'static str, more: u64) {
    if FILE.is_some() {
        *figures().sums.entry((what, sort)).or_default() += more;
    }
}

/// Something was as much as this.
pub fn measure(what: &'static str, sort: &'static str, size: u64) {
    if FILE.is_some() {
        let mut figures = figures();
        let most = figures.most.entry((what, sort)).or_default();
        *most = size.max(*most);
    }
}

/// Writes what was counted and measured since the last time: a line each, with the package under test, how
/// lines are put together, what it is, its sort and the number.
pub fn tell() {
    let Some(mut file) = FILE.as_ref() else { return };
    let package = std::env::var("CARGO_PKG_NAME").unwrap_or_default();
    let Figures { sums, most } = std::mem::take(&mut *figures());
    let mut lines = String::new();
    for (how, figures) in [("sum", sums), ("most", most)] {
        for ((what, sort), number) in figures {
            lines += &format!("{package}\t{how}\t{what}\t{sort}\t{number}\n");
        }
    }
    file.write_all(lines.as_bytes()).expect("the file takes lines");
}

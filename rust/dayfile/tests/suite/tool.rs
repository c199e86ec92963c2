//! The command-line tool as a user meets it: output, messages and exit status.

use std::process::Command;

use super::run;

const TEXT: &str = include_str!("../../../../examples/crossing.txt");
pub(crate) const FILE: &[u8] = include_bytes!("../../../../examples/crossing.day");

/// The tool with these arguments.
fn dayfile(arguments: &[&str]) -> Command {
    let mut tool = Command::new(env!("CARGO_BIN_EXE_dayfile"));
    tool.args(arguments);
    tool
}

/// What it wrote to standard output, having ended well.
pub(crate) fn output(arguments: &[&str], input: &[u8]) -> Vec<u8> {
    run::output(&mut dayfile(arguments), input)
}

/// Its exit status and what it wrote to standard output and standard error, as text.
pub(crate) fn failure(arguments: &[&str], input: &[u8]) -> (Option<i32>, String, String) {
    let output = run::run(&mut dayfile(arguments), input);
    let text = |bytes| String::from_utf8(bytes).unwrap();
    (output.status.code(), text(output.stdout), text(output.stderr))
}

#[test]
fn packs_and_unpacks() {
    assert_eq!(output(&["pack"], TEXT.as_bytes()), FILE);
    assert_eq!(output(&["unpack", "-", "-"], FILE), TEXT.as_bytes());
}

#[test]
fn packs_and_unpacks_by_file_name() {
    let examples = concat!(env!("CARGO_MANIFEST_DIR"), "/../../examples");
    let (text, file) = (format!("{examples}/crossing.txt"), format!("{examples}/crossing.day"));
    assert_eq!(output(&["pack", &text], b""), FILE);
    assert_eq!(output(&["unpack", &file], b""), TEXT.as_bytes());

    let made = std::env::temp_dir().join(format!("dayfile-test-{}.day", std::process::id()));
    assert_eq!(output(&["pack", &text, made.to_str().unwrap()], b""), b"");
    let written = std::fs::read(&made).unwrap();
    std::fs::remove_file(&made).unwrap();
    assert_eq!(written, FILE);
}

#[test]
fn shows_answers_beside_steps() {
    let shown = "\
index  step                           code       value
    0  update 0/0 Time bib 7 61000       0           0
    1  yield 0                           0           0
    2  fork box 0                        0           1
    3  update 1/1 Penalty bib 7 5000     0           1
    4  fork box 1                        7           0  in use
    5  yield 1                           0           0
    6  update 0/0 Time bib 7 60000       0           2
    7  yield 0                           0           0
    8  query 0/1 bib 7                   8           0  not caught up
    9  join 0 with 1                     0           1
   10  query 1/0 bib 7                   0       65000
   11  update 0/1 Strike bib 7           4           0  handed in
";
    assert_eq!(String::from_utf8(output(&["show"], FILE)).unwrap(), shown);
}

#[test]
fn prints_the_day() {
    let printed = String::from_utf8(output(&["print"], FILE)).unwrap();
    assert_eq!(printed.lines().count(), 13);
    assert_eq!(printed.lines().nth(11), Some("10 0 65000"));
}

/// Each kind after a strike, and a refused query of a struck bib.
const STRUCK: &str = "\
update 0/0 Strike bib 7
query 0/0 bib 7
update 0/0 Earliest bib 7 60000
query 0/0 bib 7
update 0/0 Penalty bib 7 5000
query 0/0 bib 7
query 1/0 bib 7
query 0/0 bib 8
update 0/0 Time bib 7 62000
query 0/0 bib 7
update 0/0 Strike bib 7 9
query 0/0 bib 7
update 0/0 Time bib 7 0
query 0/0 bib 7
";

#[test]
fn prints_and_shows_struck() {
    let file = output(&["pack"], STRUCK.as_bytes());
    let printed = "steps 14\n0 0 0\n1 0 struck\n2 0 1\n3 0 struck\n4 0 2\n5 0 struck\n6 7 0\n\
        7 0 0\n8 0 3\n9 0 62000\n10 0 4\n11 0 struck\n12 0 5\n13 0 0\n";
    assert_eq!(String::from_utf8(output(&["print"], &file)).unwrap(), printed);

    let shown = String::from_utf8(output(&["show"], &file)).unwrap();
    let lines: Vec<&str> = shown.lines().collect();
    assert_eq!(lines[4], "    3  query 0/0 bib 7                     0      struck");
    assert_eq!(lines[7], "    6  query 1/0 bib 7                     7           0  in use");
    assert_eq!(shown.matches("struck").count(), 4);

    let drawn = String::from_utf8(output(&["draw"], &file)).unwrap();
    assert_eq!(drawn.matches(">query: struck<").count(), 4);
}

/// The committed pictures are what the tool makes.
#[test]
fn draws_the_days() {
    let drawn = String::from_utf8(output(&["draw"], FILE)).unwrap();
    assert_eq!(drawn, include_str!("../../../../docs/crossing.svg"));

    let file = output(&["pack"], include_bytes!("../../../../examples/takeover.txt"));
    let drawn = String::from_utf8(output(&["draw"], &file)).unwrap();
    assert_eq!(drawn, include_str!("../../../../docs/takeover.svg"));
}

/// The order that docs/WHY.md reads off its day, before the join and after it.
#[test]
fn orders_the_day_of_why() {
    let text = include_str!("../../../../examples/takeover.txt");
    let before: String = text.lines().take(12).map(|line| format!("{line}\n")).collect();
    for (day, order) in [(before.as_str(), [0, 4, 3, 1, 2]), (text, [0, 4, 1, 3, 2])] {
        let file = output(&["pack"], day.as_bytes());
        let numbers: Vec<u16> = output(&["order"], &file)[8..]
            .chunks(2)
            .map(|two| u16::from_le_bytes([two[0], two[1]]))
            .collect();
        assert_eq!(numbers, order);
    }
}

/// A day on which box 1 is borne twice, and the step behind the second fork is on the later one.
fn reused() -> String {
    let others: String = (2..64).map(|_| "fork box 0\n").collect();
    format!("fork box 0\n{others}fork box 0\njoin 0 with 1\nfork box 0\nupdate 0/1 Time bib 7 5\n")
}

#[test]
fn shows_numbers_that_are_used_again() {
    let file = output(&["pack"], reused().as_bytes());
    let shown = String::from_utf8(output(&["show"], &file)).unwrap();
    let lines: Vec<&str> = shown.lines().skip(64).collect();
    assert_eq!(
        lines,
        [
            "   63  fork box 0                 10           0  no box left",
            "   64  join 0 with 1               0           0",
            "   65  fork box 0                  0           1",
            "   66  update 0/1 Time bib 7 5     0           0",
        ]
    );
}

/// A line for each box, labelled by its number: 64 boxes, and one that bears 1 again.
#[test]
fn draws_numbers_that_are_used_again() {
    let file = output(&["pack"], reused().as_bytes());
    let drawn = String::from_utf8(output(&["draw"], &file)).unwrap();
    assert_eq!(drawn.matches("r=\"4\"").count(), 65);
    assert_eq!(drawn.matches(">box 1<").count(), 2);
    assert_eq!(drawn.matches(">box 63<").count(), 1);
    assert!(!drawn.contains(">box 64<"));
    assert!(drawn.contains("Refused: steps 63 (no box left)."));
    // The update stands on the last line, and not on that of the earlier box 1.
    let update = drawn.lines().find(|line| line.contains("class=\"event\"")).unwrap();
    assert!(update.contains(&format!("cy=\"{}\"", 44 + 92 * 64)), "{update}");
}

#[test]
fn help_goes_to_standard_output() {
    let help = String::from_utf8(output(&["--help"], b"")).unwrap();
    for word in [
        "pack",
        "unpack",
        "show",
        "print",
        "board",
        "order",
        "verify",
        "courses FILE FILE FILE FILE",
        "update TABLET/BOX KIND bib BIB V",
    ] {
        assert!(help.contains(word), "{word}");
    }
}

#[test]
fn bad_text() {
    let refused = failure(&["pack"], b"yield 0\nfork 1\n");
    let message = "dayfile: line 2: expected `box`, found `1`\n";
    assert_eq!(refused, (Some(1), String::new(), message.to_string()));
    let refused = failure(&["pack"], b"yield 0\n\xff\n");
    assert_eq!(refused, (Some(1), String::new(), "dayfile: not a text in UTF-8\n".to_string()));
}

#[test]
fn bad_files() {
    let longer = vec![0; 65_537];
    let cases: [(&[u8], &str); 4] = [
        (b"\x01\0\0\0", "bad file: 4 bytes, and the header alone has 8"),
        (&longer, "bad file: longer than 65536 bytes"),
        (b"\0\0\0\0\x07\0\0\0", "bad file: records begin at byte 7, within the header"),
        (b"\x02\0\0\0\x08\0\0\0", "bad file: 2 records from byte 8 on end at byte 32, not at 8"),
    ];
    for (bytes, message) in cases {
        let message = format!("dayfile: {message}\n");
        for command in ["show", "unpack"] {
            let refused = failure(&[command], bytes);
            assert_eq!(refused, (Some(1), String::new(), message.clone()), "{command}");
        }
        assert_eq!(failure(&["print"], bytes), (Some(1), "bad file\n".to_string(), message));
    }
}

#[test]
fn missing_files_and_wrong_usage() {
    let (status, _, message) = failure(&["show", "no such file"], b"");
    assert_eq!(status, Some(1));
    assert!(message.starts_with("dayfile: no such file: "), "{message}");
    let wrong_usage =
        [&[][..], &["list"], &["show", "a", "b"], &["pack", "a", "b", "c"], &["verify", "a"]];
    for arguments in wrong_usage {
        let wrong = "dayfile: wrong usage; see dayfile --help\n".to_string();
        assert_eq!(failure(arguments, b""), (Some(2), String::new(), wrong));
    }
}

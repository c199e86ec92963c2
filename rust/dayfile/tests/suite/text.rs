//! The text of a day: what is read, and what is said of a line that is not.

use dayfile::{read_text, write_text, Record, MOST_STEPS};

#[test]
fn comments_blanks_and_spaces_do_not_count() {
    let text = "# a day\n\n  yield   3  # client 3\r\n\tfork box 0\n#\n";
    assert_eq!(write_text(&read_text(text).unwrap()), "yield 3\nfork box 0\n");
    assert_eq!(read_text(""), Ok(Vec::new()));
}

#[test]
fn the_last_line_needs_no_line_feed() {
    assert_eq!(read_text("yield 3").unwrap(), read_text("yield 3\n").unwrap());
}

#[test]
fn kinds_have_names_and_numbers() {
    let kind = |word| read_text(&format!("update 0/0 {word} bib 1 2")).unwrap()[0].kind;
    let words = ["Time", "Earliest", "Penalty", "Strike", "0", "1", "4", "5", "255"];
    assert_eq!(words.map(kind), [1, 2, 3, 4, 0, 1, 4, 5, 255]);
}

#[test]
fn a_strike_needs_no_value() {
    let record = Record { step: 1, client: 2, revision: 3, bib: 7, kind: 4, ..Record::default() };
    assert_eq!(read_text("update 2/3 Strike bib 7"), Ok(vec![record]));
    assert_eq!(read_text("update 2/3 Strike bib 7 9"), Ok(vec![Record { v: 9, ..record }]));
}

#[test]
fn the_largest_numbers_fit() {
    let text = "update 255/255 255 bib 65535 4294967295\njoin 255 with 255\nstep 255\n";
    assert_eq!(write_text(&read_text(text).unwrap()), text);
}

#[test]
fn each_error_names_its_line_and_what_was_expected() {
    let cases = [
        ("finish 0", "unknown step `finish`; there are update, query, yield, fork, join and step"),
        ("Update 0/0 Time bib 7 1", "unknown step `Update`; there are update, query, yield, fork, join and step"),
        ("update 0 Time bib 7 1", "expected tablet/box, as in 0/1, found `0`"),
        ("update 256/0 Time bib 7 1", "expected a tablet number from 0 to 255, found `256`"),
        ("update 0/x Time bib 7 1", "expected a box number from 0 to 255, found `x`"),
        ("update 0/ Time bib 7 1", "expected a box number from 0 to 255, found ``"),
        ("update 0/0 time bib 7 1", "expected a kind of update (Time, Earliest, Penalty, Strike, or a number) from 0 to 255, found `time`"),
        ("update 0/0 Time 7 1", "expected `bib`, found `7`"),
        ("update 0/0 Time bib 65536 1", "expected a bib from 0 to 65535, found `65536`"),
        ("update 0/0 Time bib 7", "a value is missing at the end of the line"),
        ("update 0/0 Time bib 7 4294967296", "expected a value from 0 to 4294967295, found `4294967296`"),
        ("update 0/0 Time bib 7 +1", "expected a value from 0 to 4294967295, found `+1`"),
        ("update 0/0 Time bib 7 1 2", "`2` is left over after the step"),
        ("query 0/0", "`bib` is missing at the end of the line"),
        ("query", "tablet/box is missing at the end of the line"),
        ("yield", "a tablet number is missing at the end of the line"),
        ("yield -1", "expected a tablet number from 0 to 255, found `-1`"),
        ("fork 0", "expected `box`, found `0`"),
        ("join 0 1", "expected `with`, found `1`"),
        ("join 0 with", "a box number is missing at the end of the line"),
        ("step 3", "step byte 3 is written `yield`"),
        ("step 256", "expected a step byte from 0 to 255, found `256`"),
        ("list box 0 room 12", "unknown step `list`; there are update, query, yield, fork, join and step"),
        ("fill box 0", "unknown step `fill`; there are update, query, yield, fork, join and step"),
        ("bundle 0/0, Time bib 7 1", "unknown step `bundle`; there are update, query, yield, fork, join and step"),
        ("preview 0 with 1 bib 7", "unknown step `preview`; there are update, query, yield, fork, join and step"),
    ];
    for (line, message) in cases {
        let error = read_text(&format!("yield 0\n\n{line}\nyield x\n")).unwrap_err();
        assert_eq!((error.line, error.message.as_str()), (3, message), "{line}");
        assert_eq!(error.to_string(), format!("line 3: {message}"));
    }
}

#[test]
fn the_line_of_the_first_step_too_many() {
    let most = "yield 0\n".repeat(MOST_STEPS);
    assert_eq!(read_text(&most).map(|records| records.len()), Ok(MOST_STEPS));
    assert_eq!(read_text(&(most + "\nyield 0\n")).unwrap_err().line, MOST_STEPS + 2);
}

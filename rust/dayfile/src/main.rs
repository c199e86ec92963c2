//! The command-line tool: day files from text and back, and what a day answers.

#![forbid(unsafe_code)]

use std::fs::File;
use std::io::{self, Read, Write};
use std::process::ExitCode;

use dayfile::{
    billed_day, boarded_day, drawn_day, misfit, ordered_day, printed_day, read_file, read_text,
    shown_courses, shown_day, write_file, write_text, Record, LONGEST,
};

const HELP: &str = "\
Day files from readable text and back, and what a day answers.

usage: dayfile pack   [TEXT [FILE]]   text to day file
       dayfile unpack [FILE [TEXT]]   day file to text
       dayfile show   [FILE]          each step with its code, value and refusal
       dayfile print  [FILE]          the printed day: index, code, value
       dayfile board  [FILE]          the announcer's board: bib, state, value
       dayfile bill   [FILE [member]] the rental bill in cents
       dayfile draw   [FILE [SVG]]    the day's diagram as a picture
       dayfile order  [FILE [ORDER]]  the order of the day's updates, as a file
       dayfile verify FILE ORDER      whether such a file fits the day: yes or no
       dayfile courses FILE FILE FILE FILE
                                      four days on one card, one step of each in turn
       dayfile --help                 this text

A missing name or `-` means standard input or standard output. `show`, `print`
and `draw` have `struck` for the value of a query that finds its bib struck. `board`
has the bibs that are struck or timed at box 0 when the day ends, by closed
transactions only.

An order has a count and an offset, 4 bytes each, and from the offset on update
numbers of 2 bytes, least significant byte first. It fits if it has every update
taken once, no other number, and the updates of every box that is out in the
order in which that box lists them. Beside a no stands the first reason found.

The four files of `courses` are the days of courses 0 to 3. Their card holds 8,192
updates, of which each course has 1,024 assured. Each step is shown with its
course, its index in its own day, code, value and refusal; code 20 is a full card.

A text has one step a line. A # begins a comment; blank lines are left out.

    update TABLET/BOX KIND bib BIB V   KIND: Time, Earliest, Penalty, Strike, or 0 to 255
    update TABLET/BOX Strike bib BIB   the same with V 0
    query TABLET/BOX bib BIB
    yield TABLET
    fork box BOX
    join BOX with BOX                  the joiner, then the box handed in
    step BYTE                          a step byte that is not 1 to 5

TABLET and BOX are 0 to 255, BIB is 0 to 65535, V is 0 to 4294967295: what fits
the record, in range or not, so that refusals can be written too. A packed file
has its records at offset 8, and 0 in the fields that a step doesn't use.
Unpacking leaves out those fields and the bytes between header and records.

exit status: 0 done, 1 bad text, bad file or no such file, or the order does not
fit or is a bad list (code 21), 2 wrong usage
";

const BAD_LIST: &str = "length or offset under 8, or offset + 2 times the count isn't the length";

fn main() -> ExitCode {
    let arguments: Vec<String> = std::env::args().skip(1).collect();
    let words: Vec<&str> = arguments.iter().map(String::as_str).collect();
    let done = match words[..] {
        ["--help" | "-h" | "help"] => write_bytes("-", HELP.as_bytes()),
        ["pack"] => pack("-", "-"),
        ["pack", text] => pack(text, "-"),
        ["pack", text, file] => pack(text, file),
        ["unpack"] => unpack("-", "-"),
        ["unpack", file] => unpack(file, "-"),
        ["unpack", file, text] => unpack(file, text),
        ["show"] => show("-"),
        ["show", file] => show(file),
        ["print"] => print("-"),
        ["print", file] => print(file),
        ["board"] => board("-"),
        ["board", file] => board(file),
        ["bill"] => bill("-", false),
        ["bill", file] => bill(file, false),
        ["bill", file, "member"] => bill(file, true),
        ["draw"] => draw("-", "-"),
        ["draw", file] => draw(file, "-"),
        ["draw", file, picture] => draw(file, picture),
        ["order"] => order("-", "-"),
        ["order", file] => order(file, "-"),
        ["order", file, order_file] => order(file, order_file),
        ["verify", file, order_file] => verify(file, order_file),
        ["courses", a, b, c, d] => courses([a, b, c, d]),
        _ => return wrong_usage(),
    };
    match done {
        Ok(()) => ExitCode::SUCCESS,
        Err(message) => {
            eprintln!("dayfile: {message}");
            ExitCode::FAILURE
        }
    }
}

fn wrong_usage() -> ExitCode {
    eprintln!("dayfile: wrong usage; see dayfile --help");
    ExitCode::from(2)
}

fn pack(text: &str, file: &str) -> Result<(), String> {
    let bytes = read_bytes(text, usize::MAX)?;
    let content = String::from_utf8(bytes).map_err(|_| named(text, "not a text in UTF-8"))?;
    let records = read_text(&content).map_err(|error| named(text, error))?;
    let bytes = write_file(&records).ok_or_else(|| named(text, "too many steps"))?;
    write_bytes(file, &bytes)
}

fn unpack(file: &str, text: &str) -> Result<(), String> {
    write_bytes(text, write_text(&records(file)?).as_bytes())
}

fn show(file: &str) -> Result<(), String> {
    write_bytes("-", shown_day(&records(file)?).as_bytes())
}

fn board(file: &str) -> Result<(), String> {
    write_bytes("-", boarded_day(&records(file)?).as_bytes())
}

fn bill(file: &str, member: bool) -> Result<(), String> {
    write_bytes("-", format!("{}\n", billed_day(&records(file)?, member)).as_bytes())
}

fn draw(file: &str, picture: &str) -> Result<(), String> {
    write_bytes(picture, drawn_day(&records(file)?).as_bytes())
}

fn order(file: &str, order: &str) -> Result<(), String> {
    write_bytes(order, &ordered_day(&records(file)?))
}

fn courses(files: [&str; 4]) -> Result<(), String> {
    if files.iter().filter(|&&file| file == "-").count() > 1 {
        return Err("only one of the four days can come from standard input".to_string());
    }
    let [a, b, c, d] = files.map(records);
    write_bytes("-", shown_courses(&[a?, b?, c?, d?]).as_bytes())
}

/// A no is printed as such, and its reason is an error besides.
fn verify(file: &str, order: &str) -> Result<(), String> {
    if (file, order) == ("-", "-") {
        return Err("the day and its order are two files".to_string());
    }
    let records = records(file)?;
    match misfit(&records, &read_bytes(order, usize::MAX)?) {
        Ok(None) => write_bytes("-", b"yes\n"),
        Ok(Some(misfit)) => write_bytes("-", b"no\n").and(Err(named(order, misfit))),
        Err(code) => Err(named(order, format!("{code}: {BAD_LIST}"))),
    }
}

/// A bad file is printed as such, and is an error besides.
fn print(file: &str) -> Result<(), String> {
    let bytes = read_bytes(file, LONGEST + 1)?;
    write_bytes("-", printed_day(&bytes).as_bytes())?;
    read_file(&bytes).map(|_| ()).map_err(|error| named(file, error))
}

fn records(file: &str) -> Result<Vec<Record>, String> {
    read_file(&read_bytes(file, LONGEST + 1)?).map_err(|error| named(file, error))
}

/// Reads so many bytes at most: one more than fits tells a file that is too long.
fn read_bytes(name: &str, most: usize) -> Result<Vec<u8>, String> {
    let mut bytes = Vec::new();
    let source: io::Result<Box<dyn Read>> = match name {
        "-" => Ok(Box::new(io::stdin())),
        _ => File::open(name).map(|file| Box::new(file) as Box<dyn Read>),
    };
    let read = source.and_then(|source| source.take(most as u64).read_to_end(&mut bytes));
    read.map(|_| bytes).map_err(|error| named(name, error))
}

fn write_bytes(name: &str, bytes: &[u8]) -> Result<(), String> {
    let written = match name {
        "-" => io::stdout().write_all(bytes).and_then(|()| io::stdout().flush()),
        _ => std::fs::write(name, bytes),
    };
    written.map_err(|error| named(name, error))
}

fn named(name: &str, error: impl std::fmt::Display) -> String {
    match name {
        "-" => error.to_string(),
        _ => format!("{name}: {error}"),
    }
}

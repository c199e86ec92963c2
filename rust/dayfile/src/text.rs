//! The text of a day: one step a line, as in 01's example.
//!
//! The grammar stands in the tool's `--help`. Everything that a day file can say of its steps has a
//! text, strange steps too; fields that a step doesn't use have none.

use std::fmt;
use std::str::SplitWhitespace;

use calls::{KINDS, STRIKE};

use crate::file::MOST_STEPS;
use crate::record::{Record, StepByte};

/// What is wrong with a text, and in which line, counted from 1.
#[derive(Clone, Debug, PartialEq, Eq)]
pub struct TextError {
    /// The line.
    pub line: usize,
    /// What is wrong.
    pub message: String,
}

impl fmt::Display for TextError {
    fn fmt(&self, f: &mut fmt::Formatter<'_>) -> fmt::Result {
        write!(f, "line {}: {}", self.line, self.message)
    }
}

impl std::error::Error for TextError {}

/// The steps as text, a line feed after each.
pub fn write_text(records: &[Record]) -> String {
    records.iter().map(|record| format!("{record}\n")).collect()
}

/// The steps of a text. Blank lines are left out, and what follows a `#`.
pub fn read_text(text: &str) -> Result<Vec<Record>, TextError> {
    let mut records = Vec::new();
    for (index, line) in text.lines().enumerate() {
        let error = |message| TextError { line: index + 1, message };
        let step = line.split('#').next().unwrap_or_default();
        if step.trim().is_empty() {
            continue;
        }
        if records.len() == MOST_STEPS {
            return Err(error(format!("a day file has no room for more than {MOST_STEPS} steps")));
        }
        records.push(Words(step.split_whitespace()).step().map_err(error)?);
    }
    Ok(records)
}

/// The words of a line, taken one by one.
struct Words<'a>(SplitWhitespace<'a>);

impl<'a> Words<'a> {
    fn step(mut self) -> Result<Record, String> {
        let record = match self.next("a step")? {
            "update" => self.update()?,
            "query" => self.query()?,
            "yield" => Record { client: self.client()?, ..empty(StepByte::Yield) },
            "fork" => {
                self.expect("box")?;
                Record { revision: self.revision()?, ..empty(StepByte::Fork) }
            }
            "join" => self.join()?,
            "step" => self.strange()?,
            other => {
                return Err(format!(
                    "unknown step `{other}`; there are update, query, yield, fork, join and step"
                ))
            }
        };
        match self.0.next() {
            Some(word) => Err(format!("`{word}` is left over after the step")),
            None => Ok(record),
        }
    }

    fn update(&mut self) -> Result<Record, String> {
        let (client, revision) = self.client_on_revision()?;
        let kind = self.kind()?;
        self.expect("bib")?;
        let bib = self.bib()?;
        let v = match self.0.next() {
            Some(word) => number(word, "a value", u32::MAX)?,
            None if kind == STRIKE => 0,
            None => return Err("a value is missing at the end of the line".to_string()),
        };
        Ok(Record { client, revision, kind, bib, v, ..empty(StepByte::Update) })
    }

    fn query(&mut self) -> Result<Record, String> {
        let (client, revision) = self.client_on_revision()?;
        self.expect("bib")?;
        Ok(Record { client, revision, bib: self.bib()?, ..empty(StepByte::Query) })
    }

    fn join(&mut self) -> Result<Record, String> {
        let revision = self.revision()?;
        self.expect("with")?;
        Ok(Record { revision, second: self.revision()?, ..empty(StepByte::Join) })
    }

    fn strange(&mut self) -> Result<Record, String> {
        let step = byte(self.next("a step byte")?, "a step byte")?;
        match StepByte::of(step) {
            Some(known) => Err(format!("step byte {step} is written `{}`", word_of(known))),
            None => Ok(Record { step, ..Record::default() }),
        }
    }

    fn next(&mut self, what: &str) -> Result<&'a str, String> {
        self.0.next().ok_or_else(|| format!("{what} is missing at the end of the line"))
    }

    fn expect(&mut self, expected: &str) -> Result<(), String> {
        match self.next(&format!("`{expected}`"))? {
            word if word == expected => Ok(()),
            word => Err(format!("expected `{expected}`, found `{word}`")),
        }
    }

    fn client(&mut self) -> Result<u8, String> {
        byte(self.next(CLIENT)?, CLIENT)
    }

    fn revision(&mut self) -> Result<u8, String> {
        byte(self.next(REVISION)?, REVISION)
    }

    /// Written as tablet/box.
    fn client_on_revision(&mut self) -> Result<(u8, u8), String> {
        let word = self.next("tablet/box")?;
        let Some((client, revision)) = word.split_once('/') else {
            return Err(format!("expected tablet/box, as in 0/1, found `{word}`"));
        };
        Ok((byte(client, CLIENT)?, byte(revision, REVISION)?))
    }

    /// A name, or any number that fits its byte.
    fn kind(&mut self) -> Result<u8, String> {
        let what = "a kind of update (Time, Earliest, Penalty, Strike, or a number)";
        let word = self.next(what)?;
        match KINDS.iter().position(|name| *name == word) {
            Some(place) => Ok(place as u8 + 1),
            None => byte(word, what),
        }
    }

    fn bib(&mut self) -> Result<u16, String> {
        let bib = number(self.next("a bib")?, "a bib", u32::from(u16::MAX))?;
        Ok(bib as u16)
    }
}

const CLIENT: &str = "a tablet number";
const REVISION: &str = "a box number";

/// A step with 0 in every other field.
fn empty(step: StepByte) -> Record {
    Record { step: step as u8, ..Record::default() }
}

fn word_of(step: StepByte) -> &'static str {
    match step {
        StepByte::Update => "update",
        StepByte::Query => "query",
        StepByte::Yield => "yield",
        StepByte::Fork => "fork",
        StepByte::Join => "join",
    }
}

fn byte(word: &str, what: &str) -> Result<u8, String> {
    number(word, what, u32::from(u8::MAX)).map(|number| number as u8)
}

/// Decimal digits alone, up to the largest number.
fn number(word: &str, what: &str, largest: u32) -> Result<u32, String> {
    let digits = word.bytes().all(|byte| byte.is_ascii_digit());
    match word.parse::<u32>() {
        Ok(number) if digits && number <= largest => Ok(number),
        _ => Err(format!("expected {what} from 0 to {largest}, found `{word}`")),
    }
}

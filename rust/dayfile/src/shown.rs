//! A day's answers beside its steps.

use calls::{Answer, Code};

use crate::printed::{answers, value};
use crate::record::Record;

/// A step beside its answer.
pub(crate) struct Shown {
    pub(crate) index: usize,
    pub(crate) step: String,
    pub(crate) answer: Answer,
}

impl Shown {
    /// How wide the column of the steps is.
    pub(crate) fn width<'a>(shown: impl Iterator<Item = &'a Shown>) -> usize {
        shown.map(|shown| shown.step.len()).max().unwrap_or(0).max("step".len())
    }

    /// The line above the first.
    pub(crate) fn title(width: usize) -> String {
        format!("index  {:width$}  code       value", "step")
    }

    /// Index, step, code, value, and for a refusal its name.
    pub(crate) fn line(&self, width: usize) -> String {
        let Shown { index, step, answer } = self;
        let name = match answer.code {
            Code::Accepted => String::new(),
            refusal => format!("  {}", refusal.name()),
        };
        let (code, value) = (answer.code.number(), value(answer));
        format!("{index:>5}  {step:width$}  {code:>4}  {value:>10}{name}")
    }
}

/// A table of the steps: index, step, code, value, and for a refusal its name.
pub fn shown_day(records: &[Record]) -> String {
    let steps = records.iter().zip(answers(records)).enumerate();
    let shown: Vec<Shown> = steps
        .map(|(index, (record, answer))| Shown { index, step: record.to_string(), answer })
        .collect();
    let width = Shown::width(shown.iter());
    let mut text = Shown::title(width) + "\n";
    for shown in &shown {
        text += &shown.line(width);
        text.push('\n');
    }
    text
}

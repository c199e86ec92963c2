//! A day as a revision diagram, in SVG: a line for each revision, time from left to right.

use std::fmt::Write;

use calls::{Answer, Call, Code, KINDS};

use crate::printed::{answers, value};
use crate::record::Record;

/// Between two vertices, and between two revisions.
const STEP: f64 = 116.0;
const LANE: f64 = 92.0;
/// Of the root.
const LEFT: f64 = 72.0;
const TOP: f64 = 44.0;

/// A revision as far as it is drawn.
struct Lane {
    /// The number that it bears, or bore.
    number: u32,
    start: f64,
    /// Where its last vertex stands.
    end: f64,
}

/// What is drawn so far. Edges come before vertices, so that these lie on top.
struct Drawing {
    /// In the order of their starts.
    lanes: Vec<Lane>,
    /// Where the newest vertex stands.
    now: f64,
    edges: String,
    vertices: String,
    refused: Vec<String>,
}

/// The diagram of the day's accepted steps. Yields add no vertex; refused steps are named below.
pub fn drawn_day(records: &[Record]) -> String {
    let mut drawing = Drawing::root();
    for (index, (record, answer)) in records.iter().zip(answers(records)).enumerate() {
        if answer.code == Code::Accepted {
            if let Some(call) = record.call() {
                drawing.step(call, &answer);
            }
        } else {
            drawing.refused.push(format!("{index} ({})", answer.code.name()));
        }
    }
    drawing.svg()
}

fn y(lane: usize) -> f64 {
    TOP + LANE * lane as f64
}

fn put(text: &mut String, line: String) {
    // Writing to a string does not fail.
    let _ = writeln!(text, "{line}");
}

impl Drawing {
    fn root() -> Self {
        let mut drawing = Drawing {
            lanes: Vec::new(),
            now: LEFT,
            edges: String::new(),
            vertices: String::new(),
            refused: Vec::new(),
        };
        drawing.start(0, LEFT);
        drawing
    }

    /// The lane of the latest revision that bore a number.
    fn lane(&self, number: u8) -> usize {
        let bears = |lane: &Lane| lane.number == u32::from(number);
        match self.lanes.iter().rposition(bears) {
            Some(lane) => lane,
            None => unreachable!("an accepted step names revisions that are out"),
        }
    }

    /// A revision's start vertex, with its name before it.
    fn start(&mut self, number: u32, x: f64) {
        let (name, y) = (x - 12.0, y(self.lanes.len()));
        self.lanes.push(Lane { number, start: x, end: x });
        put(&mut self.vertices, format!("<circle cx=\"{x}\" cy=\"{y}\" r=\"4\"/>"));
        let name =
            format!("<text x=\"{name}\" y=\"{}\" text-anchor=\"end\">box {number}</text>", y + 5.0);
        put(&mut self.vertices, name);
    }

    fn step(&mut self, call: Call, answer: &Answer) {
        match call {
            Call::Update { client, revision, kind, bib, v } => {
                let name = KINDS[usize::from(kind) - 1];
                let what =
                    if kind == calls::STRIKE { name.to_string() } else { format!("{name} {v}") };
                self.vertex(revision, "event", &what, &format!("bib {bib}, tablet {client}"));
            }
            Call::Query { client, revision, bib } => {
                let what = format!("query: {}", value(answer));
                self.vertex(revision, "event query", &what, &format!("bib {bib}, tablet {client}"));
            }
            Call::Fork { revision } => {
                self.vertex(revision, "turn", "fork", "");
                let (x, from) = (self.now + STEP / 2.0, y(self.lane(revision)));
                let to = y(self.lanes.len());
                put(&mut self.edges, format!("<path d=\"M{} {from}L{x} {to}\"/>", self.now));
                self.start(answer.value, x);
            }
            Call::Join { joiner, joinee } => {
                let lane = self.lane(joinee);
                let end = self.lanes[lane].end;
                self.vertex(joiner, "turn", "join", "");
                let (from, to) = (y(lane), y(self.lane(joiner)));
                // Along the joinee's line first, so that the edge crosses no text.
                let turn = self.now - STEP / 2.0;
                let edge = format!("<path d=\"M{end} {from}H{turn}L{} {to}\"/>", self.now);
                put(&mut self.edges, edge);
            }
            Call::Yield { .. } => {}
            // No steps of a day file.
            Call::List { .. } | Call::Fill { .. } | Call::Bundle { .. } | Call::Preview { .. } => {}
            Call::Fresh { .. } | Call::Sync { .. } | Call::Mark { .. } | Call::Drop { .. } => {}
            Call::Verify { .. } | Call::Bill { .. } | Call::OnBoard { .. } => {}
        }
    }

    /// A vertex at the terminal of a revision, with two lines of text.
    fn vertex(&mut self, revision: u8, class: &str, above: &str, below: &str) {
        self.now += STEP;
        let (x, lane) = (self.now, self.lane(revision));
        let y = y(lane);
        self.lanes[lane].end = x;
        put(
            &mut self.vertices,
            format!("<circle class=\"{class}\" cx=\"{x}\" cy=\"{y}\" r=\"7\"/>"),
        );
        for (line, y) in [(above, y - 14.0), (below, y + 25.0)] {
            if !line.is_empty() {
                put(
                    &mut self.vertices,
                    format!("<text x=\"{x}\" y=\"{y}\" text-anchor=\"middle\">{line}</text>"),
                );
            }
        }
    }

    fn svg(self) -> String {
        let (width, bottom) = (self.now + STEP / 2.0 + 20.0, y(self.lanes.len()));
        let mut text = String::new();
        put(
            &mut text,
            format!(
                "<svg xmlns=\"http://www.w3.org/2000/svg\" viewBox=\"0 0 {width} {}\" \
                 font-family=\"sans-serif\" font-size=\"14\">",
                bottom + 8.0
            ),
        );
        put(&mut text, STYLE.to_string());
        put(&mut text, format!("<rect width=\"{width}\" height=\"{}\"/>", bottom + 8.0));
        for (place, lane) in self.lanes.iter().enumerate() {
            put(&mut text, format!("<path d=\"M{} {}H{}\"/>", lane.start, y(place), lane.end));
        }
        text += &self.edges;
        text += &self.vertices;
        if !self.refused.is_empty() {
            let refused = self.refused.join(", ");
            let at = bottom - 14.0;
            put(&mut text, format!("<text x=\"16\" y=\"{at}\">Refused: steps {refused}.</text>"));
        }
        put(&mut text, "</svg>".to_string());
        text
    }
}

const STYLE: &str =
    "<style>rect{fill:#fff}text{fill:#222}path{fill:none;stroke:#555;stroke-width:2}\
circle{fill:#555}.event{fill:#0b6e99}.query{fill:#fff;stroke:#0b6e99;stroke-width:3}\
.turn{fill:#fff;stroke:#555;stroke-width:2}</style>";

//! How the calls grow, as an SVG: nanoseconds on a logarithmic scale, the library drawn through,
//! `baseline` dashed.

use std::fmt::Write;

use crate::Times;

/// A call's name, the size and the times there.
type Point = (String, usize, Times);

/// The decades of the scale: 100 ns to 100 µs.
const DECADES: [(f64, &str); 4] = [(2.0, "100 ns"), (3.0, "1 µs"), (4.0, "10 µs"), (5.0, "100 µs")];

const COLOURS: [(&str, &str); 5] = [
    ("list", "#c08a00"),
    ("query", "#0b6e99"),
    ("fork", "#b5482a"),
    ("join", "#5b7f2b"),
    ("update + yield", "#6b4fa0"),
];

const WIDTH: f64 = 340.0;
const HEIGHT: f64 = 280.0;
const TOP: f64 = 40.0;

/// Two panels side by side.
pub(crate) fn svg(by_updates: Vec<Point>, by_revisions: Vec<Point>) -> String {
    let mut text = String::from(
        "<svg xmlns=\"http://www.w3.org/2000/svg\" viewBox=\"0 0 880 420\" \
         font-family=\"sans-serif\" font-size=\"13\" fill=\"#222\">\n\
         <title>Time of each call by updates and by boxes</title>\n\
         <rect width=\"880\" height=\"420\" fill=\"#fff\"/>\n",
    );
    panel(&mut text, 80.0, "updates, 8 boxes", &by_updates);
    panel(&mut text, 510.0, "boxes, 2,048 updates", &by_revisions);
    let mut x = 80.0;
    for (name, colour) in COLOURS {
        put(&mut text, format!("<path d=\"M{x} 392h26\" stroke=\"{colour}\" stroke-width=\"2\"/>"));
        put(&mut text, format!("<text x=\"{}\" y=\"397\">{name}</text>", x + 32.0));
        x += 60.0 + 7.5 * name.len() as f64;
    }
    for (name, dashes) in [("library", ""), ("baseline", " stroke-dasharray=\"4 4\"")] {
        let line = format!("<path d=\"M{x} 392h26\" stroke=\"#222\" stroke-width=\"2\"{dashes}/>");
        put(&mut text, line);
        put(&mut text, format!("<text x=\"{}\" y=\"397\">{name}</text>", x + 32.0));
        x += 100.0;
    }
    text + "</svg>\n"
}

fn put(text: &mut String, line: String) {
    // Writing to a string does not fail.
    let _ = writeln!(text, "{line}");
}

/// The height of a time.
fn y(nanoseconds: f64) -> f64 {
    let (low, high) = (DECADES[0].0, DECADES[3].0);
    let share = (nanoseconds.max(1.0).log10() - low) / (high - low);
    TOP + HEIGHT * (1.0 - share)
}

fn panel(text: &mut String, left: f64, title: &str, points: &[Point]) {
    let mut sizes: Vec<usize> = points.iter().map(|&(_, size, _)| size).collect();
    sizes.sort_unstable();
    sizes.dedup();
    let most = sizes.last().copied().unwrap_or(1) as f64;
    let x = |size: usize| left + WIDTH * size as f64 / most;
    for (decade, name) in DECADES {
        let y = y(10f64.powf(decade));
        put(text, format!("<path d=\"M{left} {y:.1}h{WIDTH}\" stroke=\"#ddd\"/>"));
        let (x, y) = (left - 8.0, y + 4.0);
        put(text, format!("<text x=\"{x}\" y=\"{y:.1}\" text-anchor=\"end\">{name}</text>"));
    }
    for size in sizes {
        let (x, y) = (x(size), TOP + HEIGHT);
        put(text, format!("<path d=\"M{x:.1} {y}v5\" stroke=\"#888\"/>"));
        let y = y + 20.0;
        put(text, format!("<text x=\"{x:.1}\" y=\"{y}\" text-anchor=\"middle\">{size}</text>"));
    }
    let middle = left + WIDTH / 2.0;
    put(text, format!("<text x=\"{middle}\" y=\"24\" text-anchor=\"middle\">{title}</text>"));
    for (name, colour) in COLOURS {
        let path = |of: fn(&Times) -> u64| {
            let curve = points.iter().filter(|(call, _, _)| call == name);
            let point =
                |(_, size, times): &Point| format!("{:.1} {:.1}", x(*size), y(of(times) as f64));
            curve.map(point).collect::<Vec<_>>().join("L")
        };
        let style = format!("fill=\"none\" stroke=\"{colour}\" stroke-width=\"2\"");
        put(text, format!("<path d=\"M{}\" {style}/>", path(|times| times.library)));
        let dashed = path(|times| times.baseline);
        put(text, format!("<path d=\"M{dashed}\" {style} stroke-dasharray=\"4 4\"/>"));
    }
}

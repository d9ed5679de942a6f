//! The figures as a plot: cost against length, both on logarithmic axes, as SVG.

use crate::measure::Figures;
use crate::samples::Operation;
use bench::spread::Spread;
use std::fmt::Write;

const WIDTH: f64 = 940.0;
const HEIGHT: f64 = 520.0;
const TOP: f64 = 50.0;
const BOTTOM: f64 = 400.0;
const LEFTS: [f64; 2] = [85.0, 550.0];
const PANEL: f64 = 360.0;

/// Name, colour, and the figure of each program.
type Line = (&'static str, &'static str, fn(&Figures) -> Spread);
const LINES: [Line; 3] = [
    ("library", "#0b5394", |figures| figures.library),
    ("second program", "#38761d", |figures| figures.second),
    ("tables", "#cc4125", |figures| figures.table),
];

/// The axes that both panels have.
struct Axes {
    shortest: f64,
    longest: f64,
    /// Powers of ten.
    least: i32,
    most: i32,
}

impl Axes {
    fn of(all: &[&Figures]) -> Axes {
        let costs = || {
            all.iter()
                .flat_map(|f| LINES.map(|(_, _, cost)| cost(f).median.log10()))
        };
        let lengths = || all.iter().map(|f| f.n as f64);
        Axes {
            shortest: lengths().fold(f64::MAX, f64::min),
            longest: lengths().fold(0.0, f64::max),
            least: costs().fold(f64::MAX, f64::min).floor() as i32,
            most: costs().fold(f64::MIN, f64::max).ceil() as i32,
        }
    }

    fn x(&self, left: f64, n: usize) -> f64 {
        let share = (n as f64 / self.shortest).ln() / (self.longest / self.shortest).ln();
        left + 20.0 + share * (PANEL - 40.0)
    }

    fn y(&self, ns: f64) -> f64 {
        let share = (ns.log10() - f64::from(self.least)) / f64::from(self.most - self.least);
        BOTTOM - share * (BOTTOM - TOP)
    }
}

/// The codes that are drawn: of each t the smallest r, and r = t.
fn is_drawn(figures: &Figures) -> bool {
    matches!(
        figures.operation,
        Operation::Encode | Operation::CorrectBinary
    ) && (figures.r == figures.t.div_ceil(2) || figures.r == figures.t)
}

pub fn svg(all: &[Figures]) -> String {
    let drawn: Vec<&Figures> = all.iter().filter(|figures| is_drawn(figures)).collect();
    let axes = Axes::of(&drawn);
    let mut svg = format!(
        "<svg xmlns=\"http://www.w3.org/2000/svg\" viewBox=\"0 0 {WIDTH} {HEIGHT}\" \
         font-family=\"sans-serif\" font-size=\"13\">\n\
         <title>Cost of a call against the length of the code</title>\n\
         <rect width=\"{WIDTH}\" height=\"{HEIGHT}\" fill=\"white\"/>\n"
    );
    let operations = [Operation::CorrectBinary, Operation::Encode];
    for (left, operation) in LEFTS.into_iter().zip(operations) {
        let figures = drawn
            .iter()
            .filter(|figures| figures.operation == operation);
        let figures: Vec<&Figures> = figures.copied().collect();
        panel(&mut svg, &axes, left, operation.name(), &figures);
    }
    legend(&mut svg);
    svg + "</svg>\n"
}

fn text(svg: &mut String, x: f64, y: f64, anchor: &str, words: &str) {
    let place = format!("x=\"{x:.1}\" y=\"{y:.1}\" text-anchor=\"{anchor}\"");
    writeln!(svg, "<text {place} fill=\"#222222\">{words}</text>").expect("a string grows");
}

/// A line through points, dashed for r = t.
fn line(svg: &mut String, colour: &str, width: f64, dashed: bool, points: &[(f64, f64)]) {
    let points: Vec<String> = points
        .iter()
        .map(|(x, y)| format!("{x:.1},{y:.1}"))
        .collect();
    let dashes = if dashed {
        " stroke-dasharray=\"7 4\""
    } else {
        ""
    };
    let stroke = format!("stroke=\"{colour}\" stroke-width=\"{width}\"{dashes}");
    let points = points.join(" ");
    writeln!(
        svg,
        "<polyline fill=\"none\" {stroke} points=\"{points}\"/>"
    )
    .expect("a string grows");
}

fn panel(svg: &mut String, axes: &Axes, left: f64, name: &str, figures: &[&Figures]) {
    frame(svg, axes, left, name);
    for hamming in [false, true] {
        let mut row = figures.to_vec();
        row.retain(|figures| (figures.r == figures.t) == hamming);
        for (_, colour, cost) in LINES {
            let point = |f: &&Figures| (axes.x(left, f.n), axes.y(cost(f).median));
            let points: Vec<_> = row.iter().map(point).collect();
            line(svg, colour, 2.0, hamming, &points);
            for (x, y) in points {
                let place = format!("cx=\"{x:.1}\" cy=\"{y:.1}\" r=\"3\"");
                writeln!(svg, "<circle {place} fill=\"{colour}\"/>").expect("a string grows");
            }
        }
    }
    // The code with r = t is there for every length.
    let lengths = figures.iter().filter(|figures| figures.r == figures.t);
    lengths.for_each(|figures| tick(svg, axes.x(left, figures.n), figures.n));
}

/// The axes, what they show, and a line for each power of ten.
fn frame(svg: &mut String, axes: &Axes, left: f64, name: &str) {
    let (right, middle) = (left + PANEL, left + PANEL / 2.0);
    text(svg, middle, TOP - 18.0, "middle", name);
    for power in axes.least..=axes.most {
        let ns = 10_f64.powi(power);
        let y = axes.y(ns);
        line(svg, "#cccccc", 1.0, false, &[(left, y), (right, y)]);
        text(svg, left - 8.0, y + 4.0, "end", &ns.to_string());
    }
    let corners = [(left, TOP), (left, BOTTOM), (right, BOTTOM)];
    line(svg, "#222222", 1.0, false, &corners);
    text(
        svg,
        middle,
        BOTTOM + 40.0,
        "middle",
        "length n (logarithmic)",
    );
    let (x, y) = (left - 66.0, (TOP + BOTTOM) / 2.0);
    writeln!(
        svg,
        "<g transform=\"translate({x:.1} {y:.1}) rotate(-90)\">"
    )
    .expect("a string grows");
    text(svg, 0.0, 0.0, "middle", "nanoseconds a call (logarithmic)");
    svg.push_str("</g>\n");
}

fn tick(svg: &mut String, x: f64, n: usize) {
    line(
        svg,
        "#222222",
        1.0,
        false,
        &[(x, BOTTOM), (x, BOTTOM + 5.0)],
    );
    text(svg, x, BOTTOM + 20.0, "middle", &n.to_string());
}

fn legend(svg: &mut String) {
    for (row, hamming) in [false, true].into_iter().enumerate() {
        let y = BOTTOM + 72.0 + 24.0 * row as f64;
        let which = if hamming { "r = t" } else { "smallest r" };
        for (column, (name, colour, _)) in LINES.into_iter().enumerate() {
            let x = 130.0 + 240.0 * column as f64;
            line(
                svg,
                colour,
                2.0,
                hamming,
                &[(x, y - 4.0), (x + 40.0, y - 4.0)],
            );
            text(svg, x + 48.0, y, "start", &format!("{name}, {which}"));
        }
    }
}

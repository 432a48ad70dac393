//! docs/benchmark.svg: nanoseconds a node against nodes, whose axis is logarithmic.
use crate::measure::Row;

const WIDTH: f64 = 720.0;
const HEIGHT: f64 = 400.0;
const LEFT: f64 = 60.0;
const RIGHT: f64 = 590.0;
const TOP: f64 = 50.0;
const BOTTOM: f64 = 340.0;

/// A line of the plot: its name, its colour, and what it shows of a size.
struct Line {
    name: &'static str,
    colour: &'static str,
    of: fn(&Row) -> f64,
}

const LINES: [Line; 2] = [
    Line { name: "Rust compile", colour: "#c2571a", of: |row| row.rust.median },
    Line { name: "whole call", colour: "#1f5fa8", of: |row| row.whole.median },
];

/// Where a size and a time stand.
struct Axes {
    first: f64,
    last: f64,
    top: f64,
    step: f64,
}

impl Axes {
    fn of(rows: &[Row]) -> Axes {
        let most = rows.iter().flat_map(|row| LINES.iter().map(|line| (line.of)(row))).fold(1.0, f64::max);
        // 1, 2, 5, 10, 20, 50 .., so that there are six at most
        let steps = (0..).flat_map(|k| [1, 2, 5].map(|digit| f64::from(digit) * 10f64.powi(k)));
        let step = steps.into_iter().find(|step| most <= 6.0 * step).expect("a step is large enough");
        let ends = [rows.first(), rows.last()].map(|row| row.map_or(1.0, |row| (row.nodes as f64).ln()));
        Axes { first: ends[0], last: ends[1], top: (most / step).ceil() * step, step }
    }

    fn x(&self, row: &Row) -> f64 {
        let share = ((row.nodes as f64).ln() - self.first) / (self.last - self.first);
        LEFT + 30.0 + share * (RIGHT - LEFT - 60.0)
    }

    fn y(&self, time: f64) -> f64 {
        BOTTOM - time / self.top * (BOTTOM - TOP)
    }
}

pub fn plot(rows: &[Row]) -> String {
    let axes = Axes::of(rows);
    let drawn: String = LINES.iter().map(|line| draw(line, rows, &axes)).collect();
    format!(
        "<svg xmlns=\"http://www.w3.org/2000/svg\" viewBox=\"0 0 {WIDTH} {HEIGHT}\" font-family=\"sans-serif\" font-size=\"12\">\n\
         <title>Nanoseconds a node against nodes a script</title>\n\
         <rect width=\"{WIDTH}\" height=\"{HEIGHT}\" fill=\"white\"/>\n\
         <text x=\"{LEFT}\" y=\"26\" font-size=\"15\" fill=\"#222\">Nanoseconds a node (median)</text>\n\
         {}{}{drawn}</svg>\n",
        times(&axes),
        sizes(rows, &axes)
    )
}

/// The lines across, with their times.
fn times(axes: &Axes) -> String {
    let steps = (axes.top / axes.step).round() as usize;
    let across = (0..=steps).map(|k| {
        let time = k as f64 * axes.step;
        let y = axes.y(time);
        let colour = if k == 0 { "#555" } else { "#ddd" };
        format!(
            "<line x1=\"{LEFT}\" y1=\"{y:.1}\" x2=\"{RIGHT}\" y2=\"{y:.1}\" stroke=\"{colour}\"/>\n{}",
            label(LEFT - 8.0, y + 4.0, "end", "#555", &time.to_string())
        )
    });
    across.collect()
}

/// The sizes below.
fn sizes(rows: &[Row], axes: &Axes) -> String {
    let below: String =
        rows.iter().map(|row| label(axes.x(row), BOTTOM + 18.0, "middle", "#555", &row.nodes.to_string())).collect();
    below + &label((LEFT + RIGHT) / 2.0, BOTTOM + 42.0, "middle", "#222", "nodes a script (logarithmic)")
}

fn draw(line: &Line, rows: &[Row], axes: &Axes) -> String {
    let points: Vec<(f64, f64)> = rows.iter().map(|row| (axes.x(row), axes.y((line.of)(row)))).collect();
    let path: Vec<String> = points.iter().map(|(x, y)| format!("{x:.1},{y:.1}")).collect();
    let mut text = format!(
        "<polyline points=\"{}\" fill=\"none\" stroke=\"{}\" stroke-width=\"2\"/>\n",
        path.join(" "),
        line.colour
    );
    for ((x, y), row) in points.iter().zip(rows) {
        text += &format!("<circle cx=\"{x:.1}\" cy=\"{y:.1}\" r=\"3.5\" fill=\"{}\"/>\n", line.colour);
        text += &label(*x, y - 8.0, "middle", line.colour, &format!("{:.1}", (line.of)(row)));
    }
    let end = points.last().map_or(BOTTOM, |(_, y)| *y);
    text + &label(RIGHT + 8.0, end + 4.0, "start", line.colour, line.name)
}

fn label(x: f64, y: f64, anchor: &str, colour: &str, words: &str) -> String {
    format!("<text x=\"{x:.1}\" y=\"{y:.1}\" text-anchor=\"{anchor}\" fill=\"{colour}\">{words}</text>\n")
}

//! The table, and the page that docs/ keeps.
use crate::machine::{processor, says};
use crate::measure::{Row, Times};
use crate::noise::MOST;
use crate::visits::Work;
use crate::walks::Walks;

/// A row for each size, and how much a node of the largest costs more than one of the smallest.
pub fn table(rows: &[Row]) -> String {
    let mut text = String::from(
        "| nodes a script | scripts | whole call | in mode 1 | wide | check alone | wide | Rust compile | Rust / whole call |\n|---|---|---|---|---|---|---|---|---|\n",
    );
    for row in rows {
        let [whole, mode_1, wide] = [row.whole, row.mode_1, row.wide].map(both);
        let [check, wide_check, rust] = [row.check, row.wide_check, row.rust].map(both);
        text += &format!(
            "| {} | {} | {whole} | {mode_1} | {wide} | {check} | {wide_check} | {rust} | {:.1} |\n",
            with_commas(row.nodes),
            row.scripts,
            row.ratio()
        );
    }
    let columns: [fn(&Row) -> Times; 6] =
        [|row| row.whole, |row| row.mode_1, |row| row.wide, |row| row.check, |row| row.wide_check, |row| row.rust];
    let [whole, mode_1, wide, check, wide_check, rust] = columns.map(|of| growth(rows, of));
    text + &format!("| growth | | {whole} | {mode_1} | {wide} | {check} | {wide_check} | {rust} | |\n")
}

/// The images of the same scripts, read back.
pub fn reading(rows: &[Row]) -> String {
    let mut text = String::from(
        "| fields an image | images | read | wide | framed alone | read / framed |\n|---|---|---|---|---|---|\n",
    );
    for row in rows {
        let [read, wide, framed] = [row.read, row.wide_read, row.framed].map(both);
        let (fields, ratio) = (with_commas(row.fields), row.read.median / row.framed.median);
        text += &format!("| {fields} | {} | {read} | {wide} | {framed} | {ratio:.1} |\n", row.scripts);
    }
    text
}

/// A walk, step by step.
pub fn walking(walks: &Walks) -> String {
    let ([walk, plain], ratio) = ([walks.walk, walks.plain].map(both), walks.walk.median / walks.plain.median);
    let (head, line) = ("| steps | walk | plain walker | walk / plain |", "|---|---|---|---|");
    format!("{head}\n{line}\n| {} | {walk} | {plain} | {ratio:.1} |\n", walks.steps)
}

/// Time against visits, in the same run.
pub fn work(works: &[Work]) -> String {
    let mut text = String::from(
        "| Minuses in a chain | nodes | visits, 2.5 on the left | visits, 3 on the left | a visit | a visit | visits grow | time grows |\n|---|---|---|---|---|---|---|---|\n",
    );
    for work in works {
        let ([few, many], [visits, time]) = (work.times.map(both), work.grown());
        let [least, most] = work.visits;
        text += &format!(
            "| {} | {} | {least} | {most} | {few} | {many} | {visits:.2} | {time:.2} |\n",
            work.chain, work.nodes
        );
    }
    text
}

fn both(times: Times) -> String {
    format!("{:.1} ({:.1})", times.median, times.least)
}

fn growth(rows: &[Row], of: fn(&Row) -> Times) -> String {
    let [first, .., last] = rows else { return String::new() };
    format!("{:+.0} %", 100.0 * (of(last).median / of(first).median - 1.0))
}

fn with_commas(n: usize) -> String {
    if n < 1000 {
        return n.to_string();
    }
    format!("{},{:03}", n / 1000, n % 1000)
}

/// docs/BENCHMARK.md.
pub fn page(rows: &[Row], walks: &Walks, works: &[Work], rounds: usize, date: &str) -> String {
    let (processor, rustc, kit) = (processor(), says("rustc", "--version"), says("rt", "version"));
    let (table, reading, walking, work) = (table(rows), reading(rows), walking(walks), work(works));
    let most = 100.0 * MOST;
    format!(
        "# Benchmark

Written by `bench/run` on {date}. Processor: {processor}. Rust: {rustc}, for release, with overflow checks. Rattle: {kit}.

Nanoseconds a node: the median of {rounds} rounds, and the least in brackets. Ratios and growth are of the medians, from this one run.

{table}
![nanoseconds a node against nodes](benchmark.svg)

- Whole call: `yengrazul_lower` from bytes to bytes, in mode 0. It checks the tree, lowers it, writes the image, and clears the work area and the output.
- In mode 1: the same call in that mode, in which continue in a for loop goes on with it. The Rust has no such mode.
- Wide: the same call, or the check, in mode 0 on the same scripts with marks of line and column, whose trees and images are longer.
- Check alone: `yengrazul_check` in mode 0, refusals 1 to 6.
- Rust compile: `compile` and `leave_function` of the unchanged source from a ready syntax tree. It reads no bytes, checks nothing, and writes no
  image; what it gives is dropped while the clock stands.

Nanoseconds a field of the images that come of it, read back:

{reading}
- Read: `yengrazul_read`, the whole judgement; wide: of the image with wide marks. Framed alone: a plain loop in Rust over the fields that looks at nothing but their lengths. The goal
  is at most three times that.

Nanoseconds a step of a walk by recorded decisions:

{walking}
- Walk: `yengrazul_walk`, which reads the image first, on a loop without end. Plain walker: a loop in Rust over instructions that were decoded before.
  Both go by the same decisions, chosen at random, and note what they visit. The goal is at most two times that.

Nanoseconds a visit (document 02, E6), of two trees of the same nodes, one of which has many more visits:

{work}
- Functions whose bodies are chains `n - (n - (.. a))`. With 2.5 for n each node is visited once; with 3 each right side twice. Time grows as the visits do, not as
  the nodes: what a call takes beside them (checking, writing, clearing) does not grow, so it grows somewhat less.

How it is measured. One process lowers generated scripts: functions with ordinary bodies, always accepted; before the clock starts each image of mode 0 is compared with
the Rust's, byte for byte, of both widths. For each size there are as many different scripts as make about 30,000 nodes in all, and a round goes over all of them: a small
script that is repeated is learnt by the branch predictor and looks faster than it is. Each round goes over all sizes, and in each over all
programs, so that a disturbance meets all. The work area has 12,288 words and 16 for each node, the output 64 bytes more than the image. Growth is from the
smallest size to the largest. Nothing is written where three quarters of the rounds reach more than {most:.0} % above the quickest.
"
    )
}

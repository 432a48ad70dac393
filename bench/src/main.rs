//! The proved lowering beside the Rust's, in nanoseconds a node: one process, both built for release, interleaved.
mod machine;
mod measure;
mod noise;
mod page;
mod plot;
mod scripts;
mod visits;
mod walks;

use measure::{measure, Row};
use scripts::{bundle, SIZES};
use std::path::Path;

/// The Rust's visitors go as deep as the tree, and want some stack.
const STACK: usize = 256 << 20;

fn main() {
    let words: Vec<String> = std::env::args().skip(1).collect();
    let [rounds, date] = &words[..] else { panic!("usage: bench ROUNDS DATE") };
    let rounds: usize = rounds.parse().expect("a number of rounds");
    let all = move || (measure(&SIZES.map(bundle), rounds), walks::measure(rounds), visits::measure(rounds));
    let run = std::thread::Builder::new().stack_size(STACK).spawn(all);
    let (rows, walks, works) = run.expect("a thread").join().expect("the run ends");
    print!("{}\n{}\n", page::table(&rows), page::reading(&rows));
    print!("{}\n{}", page::walking(&walks), page::work(&works));
    let verdict = noise::verdict(rows.iter().flat_map(Row::spreads).chain(walks.spreads()), rounds);
    std::process::exit(verdict.settle(|| {
        let docs = Path::new(env!("CARGO_MANIFEST_DIR")).join("../docs");
        std::fs::write(docs.join("BENCHMARK.md"), page::page(&rows, &walks, &works, rounds, date))
            .expect("docs/BENCHMARK.md is written");
        std::fs::write(docs.join("benchmark.svg"), plot::plot(&rows)).expect("docs/benchmark.svg is written");
    }));
}

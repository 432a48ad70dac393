//! The clock: each call by itself, summed over the scripts of a size, in rounds that go over all sizes and all programs.
use crate::noise::spread;
use crate::scripts::{Form, Script};
use files::tree::first_field;
use std::hint::black_box;
use std::time::Instant;

extern "C" {
    fn yengrazul_lower(
        tree: *const u8,
        tree_len: usize,
        work: *mut u32,
        work_len: usize,
        out: *mut u8,
        out_len: usize,
        mode: u64,
        answer: *mut u64,
    );
    fn yengrazul_check(tree: *const u8, tree_len: usize, work_len: usize, mode: u64, answer: *mut u64);
    fn yengrazul_read(image: *const u8, image_len: usize, answer: *mut u64);
}

/// Nanoseconds a node, or a field of an image, over all rounds.
#[derive(Clone, Copy)]
pub struct Times {
    pub median: f64,
    pub least: f64,
    /// How far the rounds are apart.
    pub spread: f64,
}

/// One size.
pub struct Row {
    /// Nodes a script.
    pub nodes: usize,
    pub scripts: usize,
    pub whole: Times,
    pub mode_1: Times,
    /// The whole call on the same scripts with wide marks, in mode 0.
    pub wide: Times,
    pub check: Times,
    pub wide_check: Times,
    pub rust: Times,
    /// Fields an image.
    pub fields: usize,
    /// A field of the image, by the reader.
    pub read: Times,
    /// The same of the wide image.
    pub wide_read: Times,
    /// A field of the image, by a loop that only frames.
    pub framed: Times,
}

impl Row {
    /// How many times as long the Rust takes as the whole call.
    pub fn ratio(&self) -> f64 {
        self.rust.median / self.whole.median
    }

    /// What was measured, in words, and its spread.
    pub fn spreads(&self) -> [(String, f64); 4] {
        let named = [
            ("the whole call", self.whole),
            ("the check alone", self.check),
            ("the Rust", self.rust),
            ("the reader", self.read),
        ];
        named.map(|(name, times)| (format!("{name} at {} nodes", self.nodes), times.spread))
    }
}

/// The work area and the output that all calls are lent a part of.
struct Lent {
    work: Vec<u32>,
    out: Vec<u8>,
}

/// A row for each size. The first round is not counted: it warms up.
pub fn measure(bundles: &[Vec<Script>], rounds: usize) -> Vec<Row> {
    let most = |of: fn(&Script) -> usize| bundles.iter().flatten().map(of).max().expect("a script");
    let mut lent = Lent { work: vec![0; most(words)], out: vec![0; most(room)] };
    bundles.iter().flatten().for_each(|script| same_image(script, &mut lent));
    let mut times = vec![[const { Vec::new() }; 9]; bundles.len()];
    for round in 0..=rounds {
        for (bundle, times) in bundles.iter().zip(&mut times) {
            let [zero, one] = [0, 1].map(|mode| whole(bundle, narrow, mode, &mut lent));
            let wider = whole(bundle, wide, 0, &mut lent);
            let [checks, reads] = [check, read].map(|of| [narrow, wide].map(|form| of(bundle, form)));
            let taken = [rust(bundle), zero, one, wider, checks[0], checks[1], reads[0], reads[1], framed(bundle)];
            if round > 0 {
                times.iter_mut().zip(taken).for_each(|(times, taken)| times.push(taken));
            }
        }
    }
    bundles.iter().zip(times).map(|(bundle, times)| row(bundle, times)).collect()
}

fn row(bundle: &[Script], times: [Vec<f64>; 9]) -> Row {
    let all: usize = bundle.iter().map(|script| script.nodes).sum();
    let fields: usize = bundle.iter().map(|script| script.fields).sum();
    let [rust, whole, mode_1, wide, check, wide_check, read, wide_read, framed] = times;
    let of_nodes = [rust, whole, mode_1, wide, check, wide_check];
    let [rust, whole, mode_1, wide, check, wide_check] = of_nodes.map(|times| summary(times, all as f64));
    let [read, wide_read, framed] = [read, wide_read, framed].map(|times| summary(times, fields as f64));
    let (nodes, scripts, fields) = (all / bundle.len(), bundle.len(), fields / bundle.len());
    Row { nodes, scripts, whole, mode_1, wide, check, wide_check, rust, fields, read, wide_read, framed }
}

pub fn summary(mut times: Vec<f64>, nodes: f64) -> Times {
    times.sort_by(f64::total_cmp);
    Times { median: times[times.len() / 2] / nodes, least: times[0] / nodes, spread: spread(&times) }
}

/// As many words as a call needs, no more: all of them are cleared.
fn words(script: &Script) -> usize {
    12_288 + 16 * script.nodes
}

/// The wide image is the longer one.
fn room(script: &Script) -> usize {
    script.wide.image.len() + 64
}

fn narrow(script: &Script) -> &Form {
    &script.narrow
}

fn wide(script: &Script) -> &Form {
    &script.wide
}

pub fn nanoseconds(work: impl FnOnce()) -> f64 {
    let start = Instant::now();
    work();
    start.elapsed().as_nanos() as f64
}

/// `compile` and `leave_function` from ready syntax trees. What they give is dropped when the clock stands.
fn rust(bundle: &[Script]) -> f64 {
    let ready: Vec<_> = bundle.iter().map(|script| script.program.clone()).collect();
    let one = |program| {
        let mut made = None;
        let taken = nanoseconds(|| made = Some(black_box(unchanged::compile(black_box(program)))));
        drop(made);
        taken
    };
    ready.into_iter().map(one).sum()
}

/// The whole call in a mode, from bytes: checks, lowering, image, clearing. The image is as long in mode 1 as in mode 0.
fn whole(bundle: &[Script], of: fn(&Script) -> &Form, mode: u64, lent: &mut Lent) -> f64 {
    let mut one = |script: &Script| {
        let mut answer = [9u64; 4];
        let taken = nanoseconds(|| answer = lower(black_box(of(script)), words(script), mode, lent));
        assert_eq!(answer[..3], [0, 0, of(script).image.len() as u64], "the script is accepted");
        taken
    };
    bundle.iter().map(&mut one).sum()
}

/// Refusals 1 to 6 alone, in mode 0.
fn check(bundle: &[Script], of: fn(&Script) -> &Form) -> f64 {
    let one = |script: &Script| {
        let mut answer = [9u64; 3];
        let tree = black_box(&of(script).tree);
        let call = || unsafe { yengrazul_check(tree.as_ptr(), tree.len(), words(script), 0, answer.as_mut_ptr()) };
        let taken = nanoseconds(call);
        assert_eq!(answer, [0, 0, script.nodes as u64], "the script is accepted");
        taken
    };
    bundle.iter().map(one).sum()
}

/// The image read back.
fn read(bundle: &[Script], of: fn(&Script) -> &Form) -> f64 {
    let one = |script: &Script| {
        let mut answer = [9u64; 2];
        let image = black_box(&of(script).image);
        let taken = nanoseconds(|| unsafe { yengrazul_read(image.as_ptr(), image.len(), answer.as_mut_ptr()) });
        assert_eq!(answer, [0, 0], "the image is taken");
        taken
    };
    bundle.iter().map(one).sum()
}

/// A plain loop over the image's fields that looks at nothing but their lengths.
fn framed(bundle: &[Script]) -> f64 {
    let one = |script: &Script| {
        let (mut fields, mut rest) = (0, &black_box(&script.narrow.image)[..]);
        let taken = nanoseconds(|| {
            while let Some((field, behind)) = first_field(rest) {
                black_box(field);
                fields += 1;
                rest = behind;
            }
        });
        assert_eq!((fields, rest.len()), (script.fields, 0), "whole fields");
        taken
    };
    bundle.iter().map(one).sum()
}

/// A tree by itself in mode 0, in room enough: how long it took, and the answer.
pub fn lowered(tree: &[u8]) -> (f64, [u64; 4]) {
    let nodes = files::tree::whole_fields(tree).0.len();
    let (mut work, mut out, mut answer) = (vec![0; 12_288 + 16 * nodes], vec![0; 65_536], [9u64; 4]);
    (nanoseconds(|| answer = call(black_box(tree), &mut work, &mut out, 0)), answer)
}

fn lower(form: &Form, words: usize, mode: u64, lent: &mut Lent) -> [u64; 4] {
    call(&form.tree, &mut lent.work[..words], &mut lent.out[..form.image.len() + 64], mode)
}

fn call(tree: &[u8], work: &mut [u32], out: &mut [u8], mode: u64) -> [u64; 4] {
    let mut answer = [9u64; 4];
    unsafe {
        yengrazul_lower(
            tree.as_ptr(),
            tree.len(),
            work.as_mut_ptr(),
            work.len(),
            out.as_mut_ptr(),
            out.len(),
            mode,
            answer.as_mut_ptr(),
        );
    }
    answer
}

/// Mode 0 gives the Rust's image, of either width, or there is nothing to compare.
fn same_image(script: &Script, lent: &mut Lent) {
    for form in [&script.narrow, &script.wide] {
        let length = form.image.len();
        assert_eq!(lower(form, words(script), 0, lent)[..3], [0, 0, length as u64], "number, place and length");
        assert!(lent.out[..length] == form.image, "the image is the Rust's");
    }
}

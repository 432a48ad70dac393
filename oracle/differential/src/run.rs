//! A whole run: random and damaged trees of a seed and those in which limits meet, the limits and the shapes, in both modes; calls in
//! modes that are none; images for the reader and the mender, and walks over them.
use crate::calls::{self, Check, Fault, Lower, Read};
use crate::mends::{mend, Mend};
use crate::walks::{walk, words, Walk};
use oracle::limits::work_words;
use oracle::questions::{self, Question};
use oracle::rng::Rng;
use oracle::{export, images, judge, mending, mends, reading, walking, walks};
use std::sync::atomic::{AtomicUsize, Ordering};
use std::sync::Mutex;

#[derive(Clone, Copy)]
pub struct Plan {
    pub seed: u64,
    /// The modes that the trees are lowered in.
    pub modes: &'static [u64],
    /// In each mode.
    pub random: u64,
    /// In each mode.
    pub damaged: u64,
    /// In each mode, the same trees.
    pub meeting: u64,
    /// In each mode, the same trees.
    pub minuses: u64,
    /// In each mode, the same trees.
    pub classes: u64,
    /// In each mode: wide trees of all these kinds, damaged and mixed ones among them.
    pub wide: u64,
    /// Calls in modes that are none.
    pub no_modes: u64,
    /// Random and damaged images for the reader; where there are none, the fixed ones are not asked either.
    pub images: u64,
    /// Whether the limits, the shapes and the images made by hand are run too.
    pub fixed: bool,
    pub threads: usize,
    /// Whether each case is named before its call, to find one that ends the process.
    pub announce: bool,
    /// After so many differences the run stops.
    pub enough: usize,
    pub lower: Option<Lower>,
    pub check: Option<Check>,
    /// It also reads back what `lower` writes.
    pub read: Option<Read>,
    pub walk: Option<Walk>,
    /// Random walks; where there are none, the fixed ones are not asked either.
    pub walks: u64,
    pub mend: Option<Mend>,
    /// Random images to mend; where there are none, the fixed ones are not asked either.
    pub mends: u64,
}

impl Plan {
    /// Nothing is asked of nobody: the rest of a plan is put on top of this.
    pub fn nothing(seed: u64) -> Plan {
        Plan {
            seed,
            modes: &[0, 1],
            random: 0,
            damaged: 0,
            meeting: 0,
            minuses: 0,
            classes: 0,
            wide: 0,
            no_modes: 0,
            images: 0,
            fixed: false,
            threads: 2,
            announce: false,
            enough: 1,
            lower: None,
            check: None,
            read: None,
            walk: None,
            walks: 0,
            mend: None,
            mends: 0,
        }
    }
}

#[derive(Default)]
pub struct Report {
    /// How many trees and images were asked about, by the number that was due.
    pub by_number: [u64; 30],
    /// How many walks were asked about, by the ending that was due.
    pub endings: [u64; 5],
    pub differences: Vec<String>,
}

impl Report {
    pub fn total(&self) -> u64 {
        self.by_number.iter().sum()
    }

    fn differs(&mut self, plan: &Plan, turn: &Turn, what: &str, file: &[u8], fault: Fault) {
        let (kind, k, seed, file) = (turn.kind, turn.k, plan.seed, short(file));
        self.differences.push(format!("{what}, {kind} {k} of seed {seed}: {fault}; file {file}"));
    }

    fn add(&mut self, other: Report) {
        for (sum, n) in self.by_number.iter_mut().zip(other.by_number) {
            *sum += n;
        }
        for (sum, n) in self.endings.iter_mut().zip(other.endings) {
            *sum += n;
        }
        self.differences.extend(other.differences);
    }
}

/// Lowering recurses; a thread of the run has this much stack.
const STACK: usize = 256 << 20;

/// A question of the run, made when its turn comes.
struct Turn {
    kind: &'static str,
    mode: u64,
    k: u64,
}

/// How many questions of a kind there are in each of its modes.
struct Row {
    kind: &'static str,
    modes: &'static [u64],
    count: u64,
}

impl Row {
    fn total(&self) -> u64 {
        self.modes.len() as u64 * self.count
    }
}

/// Turn n of the rows, mode by mode.
fn turn(rows: &[Row], mut n: u64) -> Turn {
    for row in rows {
        if n < row.total() {
            return Turn { kind: row.kind, mode: row.modes[(n / row.count) as usize], k: n % row.count };
        }
        n -= row.total();
    }
    unreachable!("a turn behind the last")
}

/// What is the same in every run, made once.
#[derive(Default)]
struct Fixed {
    limits: Vec<Question>,
    wide_limits: Vec<Question>,
    shapes: Vec<Question>,
    images: Vec<Vec<u8>>,
    walks: Vec<walks::Question>,
    mends: Vec<mends::Question>,
}

/// What a turn asks about.
enum Asks {
    Tree(Question),
    Image(Vec<u8>),
    Walk(walks::Question),
    Mend(mends::Question),
}

impl Fixed {
    fn of(plan: &Plan) -> Fixed {
        let (trees, images) = (plan.fixed && plan.asks_trees(), plan.fixed && plan.asks_images());
        Fixed {
            limits: if trees { questions::limits() } else { vec![] },
            wide_limits: if trees { questions::wide_limits() } else { vec![] },
            shapes: if trees { questions::shapes() } else { vec![] },
            images: if images { images::fixed() } else { vec![] },
            walks: if plan.fixed && plan.asks_walks() { walks::fixed() } else { vec![] },
            mends: if plan.fixed && plan.asks_mends() { mends::fixed() } else { vec![] },
        }
    }

    fn asks(&self, plan: &Plan, t: &Turn) -> Asks {
        Asks::Tree(match t.kind {
            "limits" => self.limits[t.k as usize].clone().in_mode(t.mode),
            "wide limits" => self.wide_limits[t.k as usize].clone().in_mode(t.mode),
            "shapes" => self.shapes[t.k as usize].clone().in_mode(t.mode),
            "modes" => questions::no_mode(plan.seed, t.k),
            "damaged" => questions::damaged(plan.seed, t.k, t.mode),
            "meeting" => questions::meeting(plan.seed, t.k, t.mode),
            "minuses" => questions::minuses(plan.seed, t.k, t.mode),
            "classes" => questions::classes(plan.seed, t.k, t.mode),
            "wide" => questions::wide(plan.seed, t.k, t.mode),
            "random" => questions::random(plan.seed, t.k, t.mode),
            "fixed images" => return Asks::Image(self.images[t.k as usize].clone()),
            "images" => return Asks::Image(images::random::any(plan.seed, t.k)),
            "fixed walks" => return Asks::Walk(self.walks[t.k as usize].clone()),
            "walks" => return Asks::Walk(walks::random::any(plan.seed, t.k)),
            "fixed mends" => return Asks::Mend(self.mends[t.k as usize].clone()),
            "mends" => return Asks::Mend(mends::random::any(plan.seed, t.k)),
            other => unreachable!("no kind {other}"),
        })
    }
}

impl Plan {
    fn asks_trees(&self) -> bool {
        self.lower.is_some() || self.check.is_some()
    }

    fn asks_images(&self) -> bool {
        self.read.is_some() && self.images > 0
    }

    fn asks_walks(&self) -> bool {
        self.walk.is_some() && self.walks > 0
    }

    fn asks_mends(&self) -> bool {
        self.mend.is_some() && self.mends > 0
    }

    /// The kinds of questions in their order.
    fn rows(&self, fixed: &Fixed) -> Vec<Row> {
        // the reader knows no tree
        let (modes, no_modes): (&[u64], u64) = if self.asks_trees() { (self.modes, self.no_modes) } else { (&[], 0) };
        let images = if self.asks_images() { self.images } else { 0 };
        let walks = if self.asks_walks() { self.walks } else { 0 };
        let mends = if self.asks_mends() { self.mends } else { 0 };
        vec![
            Row { kind: "limits", modes, count: fixed.limits.len() as u64 },
            Row { kind: "wide limits", modes, count: fixed.wide_limits.len() as u64 },
            Row { kind: "shapes", modes, count: fixed.shapes.len() as u64 },
            Row { kind: "modes", modes: &[0], count: no_modes },
            Row { kind: "damaged", modes, count: self.damaged },
            Row { kind: "meeting", modes, count: self.meeting },
            Row { kind: "minuses", modes, count: self.minuses },
            Row { kind: "classes", modes, count: self.classes },
            Row { kind: "random", modes, count: self.random },
            Row { kind: "wide", modes, count: self.wide },
            Row { kind: "fixed images", modes: &[0], count: fixed.images.len() as u64 },
            Row { kind: "images", modes: &[0], count: images },
            Row { kind: "fixed walks", modes: &[0], count: fixed.walks.len() as u64 },
            Row { kind: "walks", modes: &[0], count: walks },
            Row { kind: "fixed mends", modes: &[0], count: fixed.mends.len() as u64 },
            Row { kind: "mends", modes: &[0], count: mends },
        ]
    }
}

pub fn run(plan: &Plan) -> Report {
    let fixed = Fixed::of(plan);
    let rows = plan.rows(&fixed);
    let total = rows.iter().map(Row::total).sum::<u64>() as usize;
    let (next, found, whole) = (AtomicUsize::new(0), AtomicUsize::new(0), Mutex::new(Report::default()));
    let work = || {
        let mut report = Report::default();
        loop {
            let n = next.fetch_add(1, Ordering::Relaxed);
            if n >= total || found.load(Ordering::Relaxed) >= plan.enough {
                break;
            }
            let t = turn(&rows, n as u64);
            if plan.announce {
                println!("{} {} of mode {}", t.kind, t.k, t.mode);
            }
            let mut rng = Rng::for_case(plan.seed ^ 0x6E6F_6973_65, n as u64);
            let before = report.differences.len();
            match fixed.asks(plan, &t) {
                Asks::Tree(question) => ask(plan, &t, question, &mut rng, &mut report),
                Asks::Image(image) => ask_reader(plan, &t, &image, &mut rng, &mut report),
                Asks::Walk(question) => ask_walker(plan, &t, &question, &mut rng, &mut report),
                Asks::Mend(question) => ask_mender(plan, &t, &question, &mut rng, &mut report),
            }
            found.fetch_add(report.differences.len() - before, Ordering::Relaxed);
        }
        whole.lock().unwrap().add(report);
    };
    std::thread::scope(|scope| {
        for _ in 0..plan.threads {
            std::thread::Builder::new().stack_size(STACK).spawn_scoped(scope, work).expect("a thread");
        }
    });
    whole.into_inner().unwrap()
}

fn ask(plan: &Plan, turn: &Turn, question: Question, rng: &mut Rng, report: &mut Report) {
    let mut number = None;
    if let Some(function) = plan.check {
        let work = work_words(&question.tree, question.work);
        let due = judge::check(&question.tree, question.mode, work).map(|nodes| nodes.len());
        number = Some(due.map_or_else(|r| r.number, |_| 0));
        if let Err(fault) = calls::check(function, &question.tree, work, question.mode, due, rng) {
            let lent = format!("mode {}, work {work}", question.mode);
            report.differs(plan, turn, "check", &question.tree, format!("{lent}: {fault}"));
        }
    }
    if let Some(function) = plan.lower {
        let asked = question.ask();
        number = Some(asked.answer.number);
        let mut right = calls::lower(function, &asked, rng);
        if turn.kind == "random" || turn.kind == "minuses" || turn.kind == "wide" {
            right = right.and_then(|()| calls::both_modes(function, &asked, rng));
        }
        if turn.kind == "wide" {
            right = right.and_then(|()| calls::both_widths(function, &asked));
        }
        if let Some(read) = plan.read.filter(|_| asked.answer.number == 0) {
            right = right.and_then(|()| calls::read_back(read, &asked.image, rng));
        }
        if let Err(fault) = right {
            let lent = format!("mode {}, work {}, room {}", asked.mode, asked.work, asked.room);
            report.differs(plan, turn, "lower", &asked.tree, format!("{lent}: {fault}"));
        }
    }
    if let Some(number) = number {
        report.by_number[usize::from(number)] += 1;
    }
}

fn ask_reader(plan: &Plan, turn: &Turn, image: &[u8], rng: &mut Rng, report: &mut Report) {
    let due = reading::numbers(image);
    if let Some(Err(fault)) = plan.read.map(|function| calls::read(function, image, due, rng)) {
        report.differs(plan, turn, "read", image, fault);
    }
    report.by_number[due[0] as usize] += 1;
}

fn ask_walker(plan: &Plan, turn: &Turn, question: &walks::Question, rng: &mut Rng, report: &mut Report) {
    let due = walking::walk(&question.image, &question.run, question.lent);
    if let Some(Err(fault)) = plan.walk.map(|function| walk(function, question, &due, rng)) {
        report.differs(plan, turn, "walk", &question.image, format!("{}: {fault}", words(question)));
    }
    let [number, _, _, _, ending] = due.numbers;
    report.by_number[number as usize] += 1;
    report.endings[ending as usize] += u64::from(number == 0);
}

fn ask_mender(plan: &Plan, turn: &Turn, question: &mends::Question, rng: &mut Rng, report: &mut Report) {
    let mends::Question { image, room, list_room } = question;
    let due = mending::mend(image, *room, *list_room);
    if let Some(Err(fault)) = plan.mend.map(|function| mend(function, question, &due, rng)) {
        report.differs(plan, turn, "mend", image, format!("room {room}, list {list_room}: {fault}"));
    }
    report.by_number[due.numbers[0] as usize] += 1;
}

/// A file for a line of text; a long one is made again from its seed.
fn short(file: &[u8]) -> String {
    if file.len() > 1000 {
        format!("of {} bytes", file.len())
    } else {
        export::hex(file)
    }
}

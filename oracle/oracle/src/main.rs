//! The command line; README.md says what each word does.
use files::image::Image;
use files::opcodes;
use oracle::questions::Question;
use oracle::{answer, compare, export, facts, judge, packed, questions, sample};
use std::io::{Read, Write};
use std::process::ExitCode;

fn main() -> ExitCode {
    let words: Vec<String> = std::env::args().skip(1).collect();
    let words: Vec<&str> = words.iter().map(String::as_str).collect();
    match run(&words) {
        Ok(()) => ExitCode::SUCCESS,
        Err(fault) => {
            eprintln!("oracle: {fault}");
            ExitCode::FAILURE
        }
    }
}

type Done = Result<(), String>;

fn run(words: &[&str]) -> Done {
    match words {
        ["answer", "--mode", mode, tree, work, room, image @ ..] => tell(mode, tree, work, room, image),
        ["answer", tree, work, room, image @ ..] => tell("0", tree, work, room, image),
        ["show", image] => show(&load(image)?),
        ["opcodes"] => print(&opcodes::lines()),
        ["rust", tree] => rust(&load(tree)?),
        ["rust", tree, image] => rust_image(&load(tree)?, image),
        ["generate", kind, rest @ ..] => generate(kind, &Options::read(rest)?),
        ["sample", path] => save(path, &packed::write(&sample::sample(sample::SEED))),
        ["export", rest @ ..] => {
            let o = Options::read(rest)?;
            let lines = export::lines(o.seed, o.count, o.mode.unwrap_or(0), !o.without_many);
            lines.iter().try_for_each(|l| print(&format!("{l}\n")))
        }
        _ => Err("answer, show, opcodes, rust, generate, sample or export; see oracle/README.md".into()),
    }
}

struct Options {
    seed: u64,
    count: u64,
    /// 0 where none is given.
    mode: Option<u64>,
    without_many: bool,
    pack: Option<String>,
}

impl Options {
    fn read(words: &[&str]) -> Result<Options, String> {
        let mut o = Options { seed: 1, count: 1000, mode: None, without_many: false, pack: None };
        let mut words = words.iter();
        while let Some(word) = words.next() {
            let mut value = || words.next().ok_or(format!("{word} wants a value"));
            match *word {
                "--seed" => o.seed = number(value()?)?,
                "--count" => o.count = number(value()?)?,
                "--mode" => o.mode = Some(number(value()?)?),
                "--pack" => o.pack = Some(value()?.to_string()),
                "--without-many" => o.without_many = true,
                other => return Err(format!("no option {other}")),
            }
        }
        Ok(o)
    }
}

fn number(word: &str) -> Result<u64, String> {
    word.parse().map_err(|_| format!("{word} is no number"))
}

/// Bytes of a file; `-` is standard input.
fn load(path: &str) -> Result<Vec<u8>, String> {
    let mut bytes = vec![];
    let read = if path == "-" { std::io::stdin().read_to_end(&mut bytes).map(|_| bytes) } else { std::fs::read(path) };
    read.map_err(|e| format!("{path}: {e}"))
}

fn save(path: &str, bytes: &[u8]) -> Done {
    std::fs::write(path, bytes).map_err(|e| format!("{path}: {e}"))
}

fn print(text: &str) -> Done {
    std::io::stdout().write_all(text.as_bytes()).map_err(|e| e.to_string())
}

/// The image goes to one file at most.
fn tell(mode: &str, tree: &str, work: &str, room: &str, image: &[&str]) -> Done {
    let (answer, bytes) = answer::answer(&load(tree)?, number(mode)?, number(work)?, number(room)?);
    match image {
        [] => {}
        [path] => save(path, &bytes)?,
        _ => return Err("one image at a time".into()),
    }
    print(&format!("{answer}\n"))
}

/// The listing of an image, and the first fact of demand 3 that fails.
fn show(bytes: &[u8]) -> Done {
    let image = Image::from_bytes(bytes)?;
    print(&files::listing::listing(&image))?;
    facts::check(&image)
}

/// What the unchanged source does; it may end this process.
fn rust(tree: &[u8]) -> Done {
    judge::check(tree, 0, u64::MAX).map_err(|r| format!("refusal {} at {}: not for the source", r.number, r.place))?;
    print(&format!("{}\n", compare::in_child(tree)))
}

/// The image that the unchanged source gives, also where the port refuses; it may end this process.
fn rust_image(tree: &[u8], path: &str) -> Done {
    let nodes = judge::check(tree, 0, u64::MAX)
        .map_err(|r| format!("refusal {} at {}: not for the source", r.number, r.place))?;
    save(path, &unchanged::attempt(&nodes)?.to_bytes())
}

fn generate(kind: &str, o: &Options) -> Done {
    let mode = o.mode.unwrap_or(0);
    let of_seed = |make: fn(u64, u64, u64) -> Question| (0..o.count).map(|k| make(o.seed, k, mode)).collect();
    let in_mode = |fixed: Vec<Question>| fixed.into_iter().map(|q| q.in_mode(mode)).collect();
    let questions: Vec<Question> = match kind {
        "random" => of_seed(questions::random),
        "small" => of_seed(questions::small),
        "damaged" => of_seed(questions::damaged),
        "meeting" => of_seed(questions::meeting),
        "minuses" => of_seed(questions::minuses),
        "classes" => of_seed(questions::classes),
        "wide" => of_seed(questions::wide),
        "wide-limits" => in_mode(questions::wide_limits()),
        "limits" => in_mode(questions::limits()),
        "shapes" => in_mode(questions::shapes()),
        "modes" if o.mode.is_none() => (0..o.count).map(|k| questions::no_mode(o.seed, k)).collect(),
        other => {
            let kinds = "random, small, damaged, meeting, minuses, classes, wide, limits, wide-limits, shapes, or modes without --mode";
            return Err(format!("no kind {other}: {kinds}"));
        }
    };
    let mut asked = questions.into_iter().map(Question::ask);
    match &o.pack {
        Some(path) => save(path, &packed::write(&asked.map(|a| packed::Packed::of(&a)).collect::<Vec<_>>())),
        None => asked.try_for_each(|a| print(&format!("{}\n", export::line(&a)))),
    }
}

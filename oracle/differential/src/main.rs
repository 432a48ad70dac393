//! The command line of the runner, with the library that was linked; README.md says what each word does.
use differential::linked;
use differential::run::{run, Plan};
use std::process::ExitCode;

fn main() -> ExitCode {
    let words: Vec<String> = std::env::args().skip(1).collect();
    match plan(&words) {
        Ok(_) if linked::library().is_none() => {
            eprintln!("differential: no library is linked: set YENGRAZUL_LIB to the folder of libyengrazul.a");
            ExitCode::from(2)
        }
        Ok(plan) => report(&plan),
        Err(fault) => {
            eprintln!("differential: {fault}");
            ExitCode::from(2)
        }
    }
}

fn plan(words: &[String]) -> Result<Plan, String> {
    let linked = linked::library();
    let mut plan = Plan {
        random: 100_000,
        damaged: 20_000,
        meeting: 4_000,
        minuses: 400,
        classes: 4_000,
        wide: 30_000,
        no_modes: 4_000,
        images: 150_000,
        fixed: true,
        threads: std::thread::available_parallelism().map_or(1, |n| n.get()),
        enough: 20,
        lower: linked.map(|library| library.lower),
        check: linked.map(|library| library.check),
        read: linked.map(|library| library.read),
        walk: linked.map(|library| library.walk),
        walks: 60_000,
        mend: linked.map(|library| library.mend),
        mends: 40_000,
        ..Plan::nothing(fresh_seed())
    };
    let mut words = words.iter();
    while let Some(word) = words.next() {
        let value = words.next().ok_or(format!("{word} wants a value"))?;
        let number = || value.parse::<u64>().map_err(|_| format!("{value} is no number"));
        match (word.as_str(), value.as_str()) {
            ("--seed", _) => plan.seed = number()?,
            ("--random", _) => plan.random = number()?,
            ("--damaged", _) => plan.damaged = number()?,
            ("--meeting", _) => plan.meeting = number()?,
            ("--minuses", _) => plan.minuses = number()?,
            ("--classes", _) => plan.classes = number()?,
            ("--wide", _) => plan.wide = number()?,
            ("--no-modes", _) => plan.no_modes = number()?,
            ("--mode", "0") => plan.modes = &[0],
            ("--mode", "1") => plan.modes = &[1],
            ("--threads", _) => plan.threads = number()? as usize,
            ("--announce", "yes") => plan.announce = true,
            ("--images", _) => plan.images = number()?,
            ("--walks", _) => plan.walks = number()?,
            ("--mends", _) => plan.mends = number()?,
            ("--only", "lower") => plan = Plan { check: None, images: 0, walk: None, mend: None, ..plan },
            ("--only", "check") => plan = Plan { lower: None, read: None, walk: None, mend: None, ..plan },
            ("--only", "read") => plan = Plan { lower: None, check: None, walk: None, mend: None, ..plan },
            ("--only", "walk") => plan = Plan { lower: None, check: None, read: None, mend: None, ..plan },
            ("--only", "mend") => plan = Plan { lower: None, check: None, read: None, walk: None, ..plan },
            _ => return Err(format!("no option {word} {value}")),
        }
    }
    Ok(plan)
}

fn fresh_seed() -> u64 {
    let now = std::time::SystemTime::now().duration_since(std::time::UNIX_EPOCH);
    now.map_or(0, |d| d.as_nanos() as u64 % 1_000_000_000_000)
}

fn report(plan: &Plan) -> ExitCode {
    let names = [
        ("lower", plan.lower.is_some()),
        ("check", plan.check.is_some()),
        ("read", plan.read.is_some()),
        ("walk", plan.walk.is_some()),
        ("mend", plan.mend.is_some()),
    ];
    let names: Vec<&str> = names.iter().filter(|(_, is)| *is).map(|(name, _)| *name).collect();
    println!("seed {}, against {}", plan.seed, names.join(" and "));
    if plan.lower.is_some() || plan.check.is_some() {
        let Plan { random, damaged, meeting, minuses, classes, wide, .. } = plan;
        println!("{random} random and {damaged} damaged trees, {meeting} where limits meet, {minuses} of Minuses,");
        println!("{classes} of classes, {wide} wide ones of all these, limits and shapes of both widths,");
        println!("each in modes {:?}, and {} calls in modes that are none", plan.modes, plan.no_modes);
    }
    if plan.read.is_some() && plan.images > 0 {
        println!("{} random and damaged images, and those at the rules' limits and edited byte by byte", plan.images);
    }
    if plan.walk.is_some() {
        println!("{} random walks, and those at every limit", plan.walks);
    }
    if plan.mend.is_some() {
        println!(
            "{} random images to mend, and those by hand and of the source's own strays and long bodies",
            plan.mends
        );
    }
    let report = run(plan);
    for (number, n) in report.by_number.iter().enumerate().filter(|(_, n)| **n > 0) {
        println!("  {number:2}: {n}");
    }
    if plan.walk.is_some() {
        println!("  walks by their ending: {:?}", report.endings);
    }
    for difference in &report.differences {
        println!("DIFFERS: {difference}");
    }
    println!("{} files, {} differences", report.total(), report.differences.len());
    if report.differences.is_empty() {
        ExitCode::SUCCESS
    } else {
        ExitCode::FAILURE
    }
}

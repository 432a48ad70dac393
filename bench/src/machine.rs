//! Where the run was made.
use std::process::Command;

/// The processor's model and how many cores there are.
pub fn processor() -> String {
    let info = std::fs::read_to_string("/proc/cpuinfo").unwrap_or_default();
    let field = |name: &str| {
        let line = info.lines().find(|line| line.starts_with(name))?;
        line.split_once(':').map(|(_, value)| value.trim().to_string())
    };
    let numbers = ["cpu family", "model\t", "stepping"].map(|name| field(name).unwrap_or("?".into()));
    let cores = std::thread::available_parallelism().map_or(0, |n| n.get());
    let [family, model, stepping] = numbers;
    let arm = || {
        Some(format!(
            "{} of implementer {}, part {}",
            std::env::consts::ARCH,
            field("CPU implementer")?,
            field("CPU part")?
        ))
    };
    let name = field("model name").or_else(arm).unwrap_or("unknown processor".into());
    let built = if cfg!(target_arch = "x86_64") {
        ""
    } else {
        "; rt compiles for x86-64, so the proved module was compiled for this one (bench/native)"
    };
    format!("{name} (family {family}, model {model}, stepping {stepping}), {cores} cores{built}")
}

/// The first line that a program says.
pub fn says(program: &str, word: &str) -> String {
    let said = Command::new(program).arg(word).output().map(|said| String::from_utf8_lossy(&said.stdout).into_owned());
    said.ok().and_then(|said| said.lines().next().map(String::from)).unwrap_or(format!("{program}, of unknown version"))
}

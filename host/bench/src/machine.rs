//! What a run is made with: the compiler, the kit and the processor, told by themselves.

use std::fs;
use std::process::Command;

/// The compiler of this program and of what it compares the proved library with.
pub fn compiler() -> &'static str {
    env!("BENCH_COMPILER")
}

/// The kit that proves and compiles the library.
pub fn kit() -> Result<String, String> {
    let output = Command::new("rt").arg("version").output();
    let output = output.map_err(|error| format!("rt version: {error}"))?;
    let version = String::from_utf8_lossy(&output.stdout).trim().to_string();
    match version.is_empty() {
        true => Err("rt version: no answer".into()),
        false => Ok(version),
    }
}

/// The processor.
pub fn processor() -> Result<String, String> {
    let text = fs::read_to_string("/proc/cpuinfo");
    let text = text.map_err(|error| format!("/proc/cpuinfo: {error}"))?;
    processor_of(&text).ok_or("/proc/cpuinfo names no processor".into())
}

/// The processor that the system's text tells of: its name, its kind, and how many there are.
pub fn processor_of(text: &str) -> Option<String> {
    let fields = text.lines().filter_map(|line| line.split_once(':'));
    let fields: Vec<(&str, &str)> = fields
        .map(|(name, value)| (name.trim(), value.trim()))
        .collect();
    let value = |wanted: &str| {
        let field = fields.iter().find(|(name, _)| *name == wanted);
        field.map(|(_, value)| *value)
    };
    let count = fields
        .iter()
        .filter(|(name, _)| *name == "processor")
        .count();
    Some(format!(
        "{}, family {}, model {}, stepping {}; {count} of them",
        value("model name")?,
        value("cpu family")?,
        value("model")?,
        value("stepping")?
    ))
}

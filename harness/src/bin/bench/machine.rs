//! What the figures were taken on: the machine, the system, the compiler and the day. No name of a machine is asked
//! for.

use std::fs;
use std::process::Command;
use std::thread;

/// Lines of a list in Markdown.
pub fn description() -> String {
    let processors = thread::available_parallelism().map_or(1, |number| number.get());
    let (processor, memory) = (processor(), memory());
    let (system, linux) = (system(), linux());
    let (compiler, day) = (
        said("rustc", &["--version"]),
        said("date", &["-u", "+%Y-%m-%d"]),
    );
    format!(
        "- Machine: {processor}, {processors} processors, {memory} of memory\n\
        - System: {system}, Linux {linux}\n\
        - Compiler of the harness: {compiler}\n\
        - Day: {day}\n"
    )
}

/// The processor's name.
fn processor() -> String {
    let name = value("/proc/cpuinfo", "model name", ':');
    name.unwrap_or_else(|| "an unnamed processor".to_string())
}

/// The memory's size, rounded to GiB.
fn memory() -> String {
    let text = value("/proc/meminfo", "MemTotal", ':').unwrap_or_default();
    match text.trim_end_matches(" kB").parse::<f64>() {
        Ok(kib) => format!("{:.0} GiB", kib / (1 << 20) as f64),
        Err(_) => "an unknown size".to_string(),
    }
}

fn system() -> String {
    let name = value("/etc/os-release", "PRETTY_NAME", '=');
    name.unwrap_or_else(|| "an unnamed system".to_string())
}

/// The first two numbers of the kernel's version: what follows may name a machine.
fn linux() -> String {
    let text = fs::read_to_string("/proc/sys/kernel/osrelease").unwrap_or_default();
    let numbers: Vec<&str> = text.trim().split('.').take(2).collect();
    numbers.join(".")
}

/// What is after the mark in the first line of a file that begins with a key, without quotes.
fn value(file: &str, key: &str, mark: char) -> Option<String> {
    let text = fs::read_to_string(file).ok()?;
    let line = text.lines().find(|line| line.starts_with(key))?;
    let (_, value) = line.split_once(mark)?;
    Some(value.trim().trim_matches('"').to_string())
}

/// The first line that a program prints.
pub fn said(program: &str, arguments: &[&str]) -> String {
    let output = Command::new(program).args(arguments).output();
    let text = output.map_or_else(|_| Vec::new(), |output| output.stdout);
    let text = String::from_utf8_lossy(&text);
    match text.lines().next() {
        Some(line) => line.to_string(),
        None => format!("unknown ({program} did not answer)"),
    }
}

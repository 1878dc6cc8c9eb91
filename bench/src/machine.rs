//! What a run is: its day, its machine, and what it is built from.
use crate::sqlite;
use std::fs;
use std::process::Command;
use std::thread;

/// A run in one line, its parts between bars: the day, the machine, its load, the toolchain, SQLite and the size.
pub fn run(size: &str) -> String {
    let day = said("date", &["-u", "+%-d %B %Y"]);
    let cores = thread::available_parallelism().map_or(1, usize::from);
    let kit = said("rt", &["version"]);
    let kit = kit.split_whitespace().find(|word| word.starts_with("rattle-kit")).unwrap_or("an unknown kit");
    let machine = format!("{} with {cores} cores", model());
    let load = fs::read_to_string("/proc/loadavg").unwrap_or_default();
    let load = load.split(' ').next().unwrap_or("unknown");
    format!("{day} | {machine} | load average {load} | {kit} | SQLite {} | size {size}", sqlite::version())
}

/// The name of the processor.
fn model() -> String {
    let told = fs::read_to_string("/proc/cpuinfo").unwrap_or_default();
    let line = told.lines().find(|line| line.starts_with("model name"));
    let name = line.and_then(|line| line.split(": ").nth(1)).unwrap_or("an unknown processor");
    name.replace("(R)", "").replace("(TM)", "")
}

/// What a program says, in one line, or nothing.
fn said(program: &str, words: &[&str]) -> String {
    let output = Command::new(program).args(words).output();
    output.map_or(String::new(), |it| String::from_utf8_lossy(&it.stdout).trim().to_string())
}

//! Measures the library through its crate for Rust, beside plain Rust and SQLite. Each case asks one question; every
//! way to do it is taken in turn, its answer compared with the one that is due, and the least of several turns is its
//! time.
//!
//!     bench [--size small|full] [--only NAME,..] [--csv DIR]
#![deny(unsafe_op_in_unsafe_fn, clippy::undocumented_unsafe_blocks)]

mod baseline;
mod cases;
mod data;
mod drawn;
mod figures;
mod heap;
mod machine;
mod options;
mod room;
mod sqlite;
mod tails;
mod threads;
mod timing;
mod updates;

use cases::CASES;
use options::Options;
use std::process::ExitCode;

fn main() -> ExitCode {
    let options = match Options::read(std::env::args().skip(1)) {
        Ok(options) => options,
        Err(fault) => {
            eprintln!("bench: {fault}\n{}", options::USAGE);
            return ExitCode::from(2);
        }
    };
    let run = machine::run(options.size.word);
    println!("{run}\na ratio is our figure by the baseline's\n");
    for case in CASES.iter().filter(|case| options.has(case.name)) {
        let table = (case.run)(options.size);
        println!("{table}");
        if let Some(folder) = &options.csv {
            if let Err(fault) = table.write(folder, &run) {
                eprintln!("bench: {}: {fault}", folder.display());
                return ExitCode::FAILURE;
            }
        }
    }
    ExitCode::SUCCESS
}

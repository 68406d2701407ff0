//! Asks the original thermostat.rs, compiled unchanged over stand-ins, and prints its answers as the console does.

#[macro_use]
mod macros;
mod console;
mod lines;
mod load;
mod plants;
mod record;
#[allow(dead_code)] // they hold all that thermostat.rs names, asked or not
mod standins;
mod world;

// The paths under which thermostat.rs imports the stand-ins.
use standins::dm::with;
use standins::{dm, error, persist, tlv, utils};

// `mod thermostat`, by the path that the build was given.
include!(concat!(env!("OUT_DIR"), "/original.rs"));

use std::io::{self, BufWriter};
use std::process::ExitCode;

fn main() -> ExitCode {
    let args: Vec<String> = std::env::args().skip(1).collect();
    let args: Vec<&str> = args.iter().map(String::as_str).collect();
    let done = match args[..] {
        [] => console::run(io::stdin().lock(), BufWriter::new(io::stdout().lock())),
        ["--table"] => plants::print_table(BufWriter::new(io::stdout().lock())),
        ["load", count, seed] => match (count.parse(), seed.parse()) {
            (Ok(count), Ok(seed)) => load::run(count, seed, io::stdout().lock()),
            _ => return usage(),
        },
        _ => return usage(),
    };
    match done {
        Ok(()) => ExitCode::SUCCESS,
        Err(_) => ExitCode::FAILURE,
    }
}

fn usage() -> ExitCode {
    eprintln!("oracle < LINES | oracle --table | oracle load COUNT SEED");
    ExitCode::from(2)
}

//! `plain` judges traces of a two-level lockup-free cache, as `score check` does, in plain Rust. It proves
//! nothing. It is there so that anyone can measure how much longer the proved program takes.
//!
//! It prints the lines of `score check`, with two differences. If logs wait for one another, it prints
//! `no cycle` without the logs. If it refuses a configuration, it says why in words of its own.

mod answer;
mod bank;
mod bytes;
mod config;
mod early;
mod input;
mod judge;
mod order;
mod port;
mod record;
mod registers;
mod shape;
mod trace;

use answer::{Answer, Refusal};
use std::env;
use std::ffi::OsString;
use std::fs::File;
use std::io::{self, Read, Write};
use std::path::Path;
use std::process::ExitCode;

const USAGE: &str = "Judges a trace of a two-level lockup-free cache, and prints one line

Usage: plain check CONFIG TRACE

Exit status: 0 yes, 1 no, 2 refused";

/// The most bytes of a configuration.
const MOST_CONFIG: u64 = 1 << 20;

fn read_config(path: &Path) -> Result<shape::Shape, Refusal> {
    let file = File::open(path).map_err(|_| Refusal::ReadConfig)?;
    let mut bytes = Vec::new();
    file.take(MOST_CONFIG + 1)
        .read_to_end(&mut bytes)
        .map_err(|_| Refusal::ReadConfig)?;
    if bytes.len() as u64 > MOST_CONFIG {
        return Err(Refusal::ReadConfig);
    }
    let text = String::from_utf8(bytes).map_err(|_| Refusal::Config("is not text".to_string()))?;
    config::read(&text).map_err(Refusal::Config)
}

fn check(config: &Path, trace: &Path) -> Result<Answer, Refusal> {
    let shape = read_config(config)?;
    let file = File::open(trace).map_err(|_| Refusal::ReadTrace)?;
    judge::judge(&shape, file)
}

fn main() -> ExitCode {
    let arguments: Vec<OsString> = env::args_os().skip(1).collect();
    let (text, status) = match arguments.as_slice() {
        [option] if option == "--help" || option == "-h" => (USAGE.to_string(), 0),
        [command, config, trace] if command == "check" => {
            let answer = check(config.as_ref(), trace.as_ref()).unwrap_or_else(Answer::Refused);
            (answer.to_string(), answer.status())
        }
        _ => (Answer::Refused(Refusal::Usage).to_string(), 2),
    };
    match writeln!(io::stdout(), "{text}") {
        Ok(()) => ExitCode::from(status),
        Err(_) => ExitCode::from(2),
    }
}

//! `oracle_report FILE`: what the printer would print for an image, by the
//! original Rust.

use oracle::{HERE, NOT_HERE, lines};
use rlimg::decode::decode;
use std::io::Write;
use std::process::ExitCode;

fn main() -> ExitCode {
    let arguments: Vec<String> = std::env::args().skip(1).collect();
    let done = match &arguments[..] {
        _ if !HERE => Err(NOT_HERE.to_string()),
        [file] => report(file),
        _ => Err("usage: oracle_report FILE".to_string()),
    };
    match done {
        Ok(()) => ExitCode::SUCCESS,
        Err(fault) => {
            eprintln!("{fault}");
            ExitCode::FAILURE
        }
    }
}

fn report(file: &str) -> Result<(), String> {
    let bytes = std::fs::read(file).map_err(|fault| format!("{file}: {fault}"))?;
    match decode(&bytes) {
        Ok(image) => print(&lines(&image)),
        Err(refusal) => print(&format!("refused {} at {}\n", refusal.number, refusal.place)),
    }
}

fn print(text: &str) -> Result<(), String> {
    let mut out = std::io::stdout().lock();
    out.write_all(text.as_bytes()).map_err(|fault| fault.to_string())
}

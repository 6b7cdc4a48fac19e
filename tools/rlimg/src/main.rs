//! `rlimg`: looks at images, and makes them from their text form.

use rlimg::image::WORK;
use rlimg::{decode, encode, pages, reader, text};
use std::io::Write;
use std::process::ExitCode;

const USAGE: &str =
    "usage: rlimg dump IMAGE | rlimg build TEXT [-o OUT] | rlimg read IMAGE | rlimg pages IMAGE";

fn main() -> ExitCode {
    let arguments: Vec<String> = std::env::args().skip(1).collect();
    let arguments: Vec<&str> = arguments.iter().map(String::as_str).collect();
    let done = match arguments[..] {
        ["dump", file] => dump(file),
        ["build", file] => build(file, None),
        ["build", file, "-o", out] | ["build", "-o", out, file] => build(file, Some(out)),
        ["read", file] => read(file),
        ["pages", file] => print_pages(file),
        _ => Err(USAGE.to_string()),
    };
    match done {
        Ok(()) => ExitCode::SUCCESS,
        Err(fault) => {
            eprintln!("{fault}");
            ExitCode::FAILURE
        }
    }
}

fn bytes_of(file: &str) -> Result<Vec<u8>, String> {
    std::fs::read(file).map_err(|fault| format!("{file}: {fault}"))
}

fn refused(refusal: reader::Refusal) -> String {
    format!("refused {} at {}", refusal.number, refusal.place)
}

fn dump(file: &str) -> Result<(), String> {
    let image = decode::decode(&bytes_of(file)?).map_err(refused)?;
    print(text::dump(&image).as_bytes())
}

fn build(file: &str, out: Option<&str>) -> Result<(), String> {
    let text = String::from_utf8(bytes_of(file)?).map_err(|_| format!("{file}: not UTF-8"))?;
    let bytes = encode::encode(&text::build(&text).map_err(|fault| format!("{file}: {fault}"))?);
    match out {
        None => print(&bytes),
        Some(out) => std::fs::write(out, bytes).map_err(|fault| format!("{out}: {fault}")),
    }
}

fn read(file: &str) -> Result<(), String> {
    let accepted = match reader::read(&bytes_of(file)?, WORK) {
        Ok(accepted) => accepted,
        Err(refusal) => return print(format!("{}\n", refused(refusal)).as_bytes()),
    };
    let counts = format!("{:?}", accepted.counts);
    let counts = counts.trim_start_matches("Counts { ").trim_end_matches(" }");
    let heights =
        |heights: &[u16]| -> String { heights.iter().map(|height| format!(" {height}")).collect() };
    let lines = format!(
        "accepted: arena: {}, {counts}\nexpression heights:{}\nstatement heights:{}\n",
        accepted.arena,
        heights(&accepted.expression_heights),
        heights(&accepted.statement_heights)
    );
    print(lines.as_bytes())
}

/// The pages, by the independent prover.
fn print_pages(file: &str) -> Result<(), String> {
    match pages::pages(&bytes_of(file)?) {
        Ok(pages) => print(&pages),
        Err(refusal) => print(format!("{}\n", refused(refusal)).as_bytes()),
    }
}

fn print(bytes: &[u8]) -> Result<(), String> {
    let mut out = std::io::stdout().lock();
    out.write_all(bytes).map_err(|fault| fault.to_string())
}

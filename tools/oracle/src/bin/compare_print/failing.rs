//! The printer where standard input or standard output cannot be used.

use crate::child::{ended, no_crash, shell, status};
use std::ffi::OsStr;
use std::fs::{File, OpenOptions};
use std::io::Read;
use std::process::{Command, Stdio};

/// What writing to always fails.
const FULL: &str = "/dev/full";
/// What can be opened and not be read.
const FOLDER: &str = ".";

/// Gives how many runs there were.
pub fn compare(printer: &OsStr, images: &[&[u8]]) -> Result<usize, String> {
    for image in images {
        let mut closed = shell(printer, "", ">&-");
        output(&mut closed, image).map_err(|fault| format!("standard output closed: {fault}"))?;
        let full = OpenOptions::new().write(true).open(FULL);
        let full = full.map_err(|fault| format!("{FULL}: {fault}"))?;
        let mut onto_full = Command::new(printer);
        output(onto_full.stdout(full), image)
            .map_err(|fault| format!("standard output {FULL}: {fault}"))?;
    }
    let mut closed = shell(printer, "", "<&-");
    input(&mut closed).map_err(|fault| format!("standard input closed: {fault}"))?;
    let folder = File::open(FOLDER).map_err(|fault| format!("{FOLDER}: {fault}"))?;
    let mut of_folder = Command::new(printer);
    input(of_folder.stdin(folder)).map_err(|fault| format!("standard input a folder: {fault}"))?;
    Ok(2 * images.len() + 2)
}

/// Nothing can be written: it ends.
fn output(command: &mut Command, image: &[u8]) -> Result<(), String> {
    no_crash(status(command, image)?)
}

/// Nothing can be read: it says so on standard error, and nothing else.
fn input(command: &mut Command) -> Result<(), String> {
    let command = command.stdout(Stdio::piped()).stderr(Stdio::piped());
    let mut child = command.spawn().map_err(|fault| fault.to_string())?;
    no_crash(ended(&mut child)?)?;
    let (mut printed, mut said) = (Vec::new(), Vec::new());
    child.stdout.take().expect("a pipe").read_to_end(&mut printed).expect("a pipe");
    child.stderr.take().expect("a pipe").read_to_end(&mut said).expect("a pipe");
    let (printed, said) = (String::from_utf8_lossy(&printed), String::from_utf8_lossy(&said));
    if !printed.is_empty() {
        return Err(format!("printed {printed:?}"));
    }
    match said.contains("read") {
        true => Ok(()),
        false => Err(format!("standard error does not say that it cannot be read: {said:?}")),
    }
}

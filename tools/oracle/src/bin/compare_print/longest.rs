//! The longest output that there can be, read as a stream and not kept.

use crate::child::{ended, feed, no_crash, shell};
use oracle::HERE;
use rlimg::decode::decode;
use rlimg::encode::encode;
use rlimg::hostile::longest_output;
use rlimg::image::{Image, LIMITS};
use rlimg::schema::Section;
use rlimg::texts::messages;
use std::ffi::OsStr;
use std::io::{BufReader, Read};
use std::process::{Child, Command, Stdio};

/// As many bytes as a pipe holds, several times.
const BUFFER: usize = 1 << 20;
/// Where a reader stops early.
const EARLY: u64 = 1_000_000;
/// The reports of a call.
const REPORTS: usize = LIMITS[5] + LIMITS[6];

/// How much was compared, in bytes and lines.
#[derive(Default)]
pub struct Compared {
    pub bytes: u64,
    pub lines: usize,
}

/// All of the output, or about so many bytes of it; and twice a reader that
/// stops early, which must end the printer.
pub fn compare(printer: &OsStr, most: u64) -> Result<Compared, String> {
    let image = longest_output();
    decode(&encode(&image)).map_err(|refusal| format!("refused {}", refusal.number))?;
    original(&image)?;
    stopped(&image, Command::new(printer))?;
    // The signal of a broken pipe is not there to end it.
    let ended = stopped(&image, shell(printer, "trap '' PIPE;", ""))?;
    no_crash(ended)?;
    let mut child = started(Command::new(printer))?;
    let (compared, status) = streamed(&image, &mut child, most)?;
    let all = LIMITS[8] * REPORTS;
    if most == u64::MAX {
        no_crash(status)?;
        if compared.lines != all {
            return Err(format!("{} lines, expected {all}", compared.lines));
        }
    }
    Ok(compared)
}

/// The original says the same of the first call; the others are like it.
fn original(image: &Image) -> Result<(), String> {
    if !HERE {
        return Ok(());
    }
    let mut first = image.clone();
    first.of_mut(Section::Call).truncate(1);
    let theirs = oracle::reports(&first).into_iter().map(|report| report.message);
    match messages(&first, 0).is_some_and(|ours| ours.len() == REPORTS && theirs.eq(ours)) {
        true => Ok(()),
        false => Err("the original has other messages".to_string()),
    }
}

fn started(mut command: Command) -> Result<Child, String> {
    let command = command.stdin(Stdio::piped()).stdout(Stdio::piped()).stderr(Stdio::null());
    command.spawn().map_err(|fault| fault.to_string())
}

/// A reader that stops early.
fn stopped(image: &Image, command: Command) -> Result<std::process::ExitStatus, String> {
    let mut child = started(command)?;
    let (_, status) = streamed(image, &mut child, EARLY)
        .map_err(|fault| format!("a reader that stops after {EARLY} bytes: {fault}"))?;
    Ok(status)
}

/// Compares the output with what is expected, up to so many bytes, and then
/// reads no more of it.
fn streamed(
    image: &Image,
    child: &mut Child,
    most: u64,
) -> Result<(Compared, std::process::ExitStatus), String> {
    let (bytes, output) = (encode(image), child.stdout.take().expect("a pipe"));
    std::thread::scope(|scope| {
        feed(scope, child.stdin.take(), &bytes);
        let compared = lines(image, BufReader::with_capacity(BUFFER, output), most);
        // The reader is gone: whatever it has found, the printer ends.
        let status = ended(child);
        Ok((compared?, status?))
    })
}

/// Line by line.
fn lines(image: &Image, mut output: impl Read, most: u64) -> Result<Compared, String> {
    let (mut compared, mut line, mut printed) = (Compared::default(), String::new(), Vec::new());
    for (call, record) in (0..).zip(image.of(Section::Call)) {
        for message in messages(image, call).expect("a call of the image") {
            line.clear();
            line.push_str(&format!("{call} {} ", record.number(1)));
            line.push_str(&message);
            line.push('\n');
            printed.resize(line.len(), 0);
            let read = output.read_exact(&mut printed);
            if read.is_err() || printed != line.as_bytes() {
                let opening: String = line.chars().take(90).collect();
                return Err(format!("line {} is not {opening:?}...", compared.lines));
            }
            compared.lines += 1;
            compared.bytes += line.len() as u64;
            if compared.bytes >= most {
                return Ok(compared);
            }
        }
    }
    match output.read(&mut [0]) {
        Ok(0) => Ok(compared),
        _ => Err(format!("more behind line {}", compared.lines)),
    }
}

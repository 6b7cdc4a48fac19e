//! The printer as a child, which must end soon.

use std::ffi::OsStr;
use std::io::Write;
use std::process::{Child, ChildStdin, Command, ExitStatus, Stdio};
use std::thread::Scope;
use std::time::{Duration, Instant};

/// The longest that the printer may go on where nothing keeps it.
const SOON: Duration = Duration::from_secs(5);
const PAUSE: Duration = Duration::from_millis(2);

/// The printer, started by a shell after `before` and with redirections.
pub fn shell(printer: &OsStr, before: &str, redirections: &str) -> Command {
    let mut command = Command::new("sh");
    command.args(["-c", &format!("{before} exec \"$0\" {redirections}")]).arg(printer);
    command
}

/// Writes the image; the printer may stop reading before its end.
pub fn feed<'s>(scope: &'s Scope<'s, '_>, input: Option<ChildStdin>, image: &'s [u8]) {
    if let Some(mut input) = input {
        scope.spawn(move || _ = input.write_all(image));
    }
}

/// Waits for the end; a child that does not end soon is ended.
pub fn ended(child: &mut Child) -> Result<ExitStatus, String> {
    let start = Instant::now();
    loop {
        if let Some(status) = child.try_wait().map_err(|fault| fault.to_string())? {
            return Ok(status);
        }
        if start.elapsed() > SOON {
            child.kill().and_then(|()| child.wait()).map_err(|fault| fault.to_string())?;
            return Err(format!("the printer does not end in {SOON:?}"));
        }
        std::thread::sleep(PAUSE);
    }
}

/// Starts the command with the image on standard input, and waits for its end.
pub fn status(command: &mut Command, image: &[u8]) -> Result<ExitStatus, String> {
    let command = command.stdin(Stdio::piped()).stderr(Stdio::null());
    let mut child = command.spawn().map_err(|fault| fault.to_string())?;
    std::thread::scope(|scope| {
        feed(scope, child.stdin.take(), image);
        ended(&mut child)
    })
}

/// The printer has come to an end of its own.
pub fn no_crash(status: ExitStatus) -> Result<(), String> {
    match status.code() {
        Some(_) => Ok(()),
        None => Err(format!("the printer was ended by a {status}")),
    }
}

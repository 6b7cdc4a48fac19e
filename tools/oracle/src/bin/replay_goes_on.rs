//! `replay_goes_on`: the programs that replay stored cases go on after a write
//! that fails. Their standard output is a pipe that does not block and has little
//! room left; what comes is each part of the stored output that still fits.

use std::fs::{File, read};
use std::io::{PipeReader, PipeWriter, Read, Write, pipe};
use std::os::fd::AsRawFd;
use std::process::{Command, ExitCode};

unsafe extern "C" {
    fn fcntl(file: i32, command: i32, argument: i32) -> i32;
}

const SET_FLAGS: i32 = 4;
const SET_PIPE_SIZE: i32 = 1_031;
const NONBLOCK: i32 = 0o4000;
/// The least that a pipe holds; a write of no more is taken whole or not at all.
const PAGE: usize = 4_096;
const ROOMS: [usize; 5] = [2, 12, 40, 400, 2_000];
const CRATES: &str = concat!(env!("CARGO_MANIFEST_DIR"), "/../../crates");

/// What is written at once: a line.
fn lines(stored: &[u8]) -> Vec<&[u8]> {
    stored.split_inclusive(|byte| *byte == b'\n').collect()
}

/// Of a lowered image what stands before its bytes, and each byte by itself; the
/// newline of every line by itself, but for one that says `too long`.
fn parts(stored: &[u8]) -> Vec<&[u8]> {
    let mut all = Vec::new();
    for line in lines(stored) {
        if line == b"too long\n" {
            all.push(line);
            continue;
        }
        let (front, newline) = line.split_at(line.len() - 1);
        let space = front.iter().rposition(|byte| *byte == b' ').unwrap_or(0);
        match front.starts_with(b"lowered") {
            true => {
                all.push(&front[..=space]);
                all.extend(front[space + 1..].chunks(2));
            }
            false => all.push(front),
        }
        all.push(newline);
    }
    all
}

/// A pipe that does not block, of one page, with so much room left.
fn nearly_full(room: usize) -> (PipeReader, PipeWriter) {
    let (reader, mut writer) = pipe().expect("a pipe");
    // SAFETY: the file is open, and neither call takes a pointer.
    let set = |command, argument| unsafe { fcntl(writer.as_raw_fd(), command, argument) };
    assert_eq!(set(SET_PIPE_SIZE, PAGE as i32), PAGE as i32);
    assert_eq!(set(SET_FLAGS, NONBLOCK), 0);
    writer.write_all(&vec![b'.'; PAGE - room]).expect("room");
    (reader, writer)
}

/// What a program writes where there is so much room, and no one reads before it ends.
fn written(name: &str, room: usize) -> Vec<u8> {
    let (mut reader, writer) = nearly_full(room);
    let stored = File::open(format!("{CRATES}/{name}/stdin")).expect("stored cases");
    let mut program = Command::new(format!("{CRATES}/{name}/out/{name}"));
    let status = program.stdin(stored).stdout(writer).status().expect("the gate's program");
    drop(program);
    assert!(status.success(), "{name}: {status}");
    let mut all = Vec::new();
    reader.read_to_end(&mut all).expect("a pipe");
    all.split_off(PAGE - room)
}

fn main() -> ExitCode {
    let programs: [(&str, fn(&[u8]) -> Vec<&[u8]>); 3] =
        [("vectors_read", lines), ("vectors_run", lines), ("vectors_lower", parts)];
    let mut runs = 0;
    for (name, of) in programs {
        let stored = read(format!("{CRATES}/{name}/stdout")).expect("stored output");
        for room in ROOMS {
            let (mut expected, mut passed_over) = (Vec::new(), 0);
            for part in of(&stored) {
                match expected.len() + part.len() <= room {
                    true => expected.extend(part),
                    false => passed_over += 1,
                }
            }
            assert_ne!(passed_over, 0, "{name}: all fits");
            if written(name, room) != expected {
                println!("replay_goes_on: {name} with room for {room} bytes writes another output");
                return ExitCode::FAILURE;
            }
            runs += 1;
        }
    }
    println!("replay_goes_on: {runs} runs, 0 differ");
    ExitCode::SUCCESS
}

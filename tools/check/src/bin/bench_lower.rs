//! `bench_lower`: lowering a function by the library's `rl_lower` and by the
//! original, in one run; then the library alone on images that ask for much
//! work.

use check::ffi;
use check::timing::{measure, measure_one};
use oracle::lower::{differ, Original, Returns};
use oracle::{HERE, NOT_HERE};
use rlimg::builder::{Builder, Function, Operand};
use rlimg::code::Code;
use rlimg::decode::decode;
use rlimg::encode::encode;
use rlimg::image::{Image, WORK};
use rlimg::lower::{answer, Call, ROOM};
use rlimg::lowerings::limits;
use std::hint::black_box;

const PLUS: u16 = 1;
const LESS: u16 = 8;
const GE: u16 = 2;
const CALL: Call = Call { work: WORK, function: 0, room: ROOM };

fn main() {
    if !HERE {
        println!("{NOT_HERE}");
    }
    println!("one function, from the bytes; ns");
    let columns =
        ["bytes", "after", "reading", "ours", "original", "ratio", "from records", "ratio"];
    print!("{:<18}", "function");
    columns[..if HERE { 8 } else { 4 }].iter().for_each(|column| print!("{column:>13}"));
    println!();
    row("typical", &rule(3, 1));
    let fits = |image: &Image| answer(&encode(image), CALL).is_ok();
    let full = (1..).map(|returns| rule(returns, 6)).take_while(fits).last();
    row("full", &full.expect("one that fits"));
    println!("\nours alone; ns");
    for (number, image) in limits::hostile().iter().enumerate() {
        hostile(&format!("hostile sharing {number}"), image);
    }
}

/// A function of two refined parameters and two requires, with so many ensures
/// and returns under conditions.
fn rule(returns: u16, ensures: u16) -> Image {
    let mut code = Code::new(Builder::new(1));
    let name = code.builder.text("open_service_flow");
    for (parameter, least) in [("flow", 1), ("priority", 0)] {
        let parameter = code.builder.text(parameter);
        code.builder.parameter(parameter, Some((GE, Operand::Integer(least))));
    }
    let clauses = [("flow", 4_096), ("priority", 8)].into_iter();
    for (name, most) in clauses.chain((0..ensures).map(|more| ("ret", 5_000 + i64::from(more)))) {
        let condition = code.with(name, LESS, most);
        let message = code.string("the id of the flow is out of range");
        code.builder.clause(condition, Some(message));
    }
    let mut body = Vec::new();
    for step in 0..returns {
        let sum = code.with("flow", PLUS, i64::from(step));
        let (condition, give) = (code.with("flow", LESS, 100), code.give(sum));
        body.push(code.when(condition, &[give]));
    }
    let value = code.name("flow");
    body.push(code.give(value));
    let body = code.builder.list(&body);
    let (span, parameters, result) = (7, (0, 2), false);
    let (requires, ensures) = ((0, 2), (2, ensures));
    code.builder.function(Function { name, span, parameters, result, body, requires, ensures });
    code.builder.image
}

/// Times of the library, of its reading alone and of the original.
fn row(name: &str, image: &Image) {
    let bytes = encode(image);
    let (mut work, mut out) = (vec![0; WORK], vec![0; ROOM]);
    let length = ffi::lower(&bytes, &mut work, 0, &mut out).place as usize;
    assert_eq!(answer(&bytes, CALL).as_deref(), Ok(&out[..length]));
    let mut read = || _ = black_box(ffi::read(black_box(&bytes), &mut work));
    let [reading] = measure([&mut read]);
    print!("{name:<18}{:>13}{length:>13}{reading:>13.0}", bytes.len());
    let lowered = decode(&out[..length]).expect("an accepted image");
    let mut ours = || _ = black_box(ffi::lower(black_box(&bytes), &mut work, 0, &mut out));
    if !HERE {
        let [ours] = measure([&mut ours]);
        return println!("{ours:>13.0}");
    }
    assert_eq!(differ(image, &lowered, 0), None);
    let mut original = || {
        let image = decode(black_box(&bytes)).expect("an accepted image");
        black_box(Original::new(&image, 0, Returns::Plain).lower());
    };
    let mut records = || _ = black_box(Original::new(black_box(image), 0, Returns::Plain).lower());
    let [ours, original, records] = measure([&mut ours, &mut original, &mut records]);
    print!("{ours:>13.0}{original:>13.0}{:>13.2}", ours / original);
    println!("{records:>13.0}{:>13.2}", ours / records);
}

fn hostile(name: &str, image: &Image) {
    let bytes = encode(image);
    let (mut work, mut out) = (vec![0; WORK], vec![0; ROOM]);
    let mut number = 0;
    let time = measure_one(&mut || {
        number = ffi::lower(black_box(&bytes), &mut work, 0, &mut out).number;
    });
    assert_eq!(number, 14, "{name}");
    println!("{name:<34}{:>8}{time:>16.0}", bytes.len());
}

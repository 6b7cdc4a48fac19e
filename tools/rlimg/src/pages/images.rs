//! Accepted images whose reports go to pages: callees and messages of every
//! width and length, where a cut falls between any two scalars, every number of
//! digits, and as many reports as fill a page or do not.

mod board;
mod listed;

pub use board::{boards, Bound, Plan, Says};
pub use listed::{descending, listed, low, numbered, plans, sized, twice};

use crate::builder::{Builder, Function, Operand};
use crate::image::{Image, Value, LIMITS};
use crate::rng::Rng;
use board::Board;

/// Scalars of one to four bytes, at the edges of each width, and those around
/// what prints as `?`.
pub const SCALARS: [char; 19] = [
    '\0',
    '\t',
    '\n',
    '\x1f',
    ' ',
    '?',
    'a',
    '\x7f',
    '\u{80}',
    '\u{e9}',
    '\u{7ff}',
    '\u{800}',
    '\u{20ac}',
    '\u{d7ff}',
    '\u{e000}',
    '\u{ffff}',
    '\u{10000}',
    '\u{1f600}',
    '\u{10ffff}',
];
/// The scalars below this print as `?`.
pub const LOW: u8 = 32;
/// Lengths in scalars, around the columns of callee and message.
pub const LENGTHS: [usize; 11] = [0, 1, 14, 15, 16, 17, 38, 39, 40, 41, 120];
/// Numbers of reports around full pages.
pub const COUNTS: [usize; 9] = [0, 1, 2, 59, 60, 61, 119, 120, 121];

/// A text of that scalar alone.
fn repeated(scalar: char, length: usize) -> String {
    std::iter::repeat_n(scalar, length).collect()
}

/// Any text, most of them about as long as a field.
fn any_text(rng: &mut Rng) -> String {
    let near = rng.pick(&LENGTHS) + rng.below(3);
    let length = if rng.one_in(60) { 600 } else { near };
    match rng.below(4) {
        0 => repeated(rng.pick(&SCALARS), length),
        1 => (0..length).map(|_| rng.pick(&SCALARS)).collect(),
        2 => (0..length).map(|_| rng.pick(&['a', '\u{e9}', '\u{20ac}', '\u{1f600}'])).collect(),
        _ => {
            let any = |rng: &mut Rng| char::from_u32(rng.below(0x11_0000) as u32).unwrap_or('a');
            (0..length).map(|_| any(rng)).collect()
        }
    }
}

/// Any text, half of them with many of the scalars that print as `?`: one in
/// eight of all scalars is such a one, or more.
fn any_low_text(rng: &mut Rng) -> String {
    let text = any_text(rng);
    if rng.one_in(2) {
        return text;
    }
    let low = |scalar: char| match rng.one_in(4) {
        true => char::from(rng.below(LOW.into()) as u8),
        false => scalar,
    };
    text.chars().map(low).collect()
}

/// How texts are drawn.
type Text = fn(&mut Rng) -> String;

/// Any number of digits.
fn any_span(rng: &mut Rng) -> u32 {
    let any = rng.number() as u32;
    let fewer = any >> rng.below(32);
    rng.pick(&[any, fewer, fewer, 0, 1, u32::MAX])
}

fn any_bound(rng: &mut Rng, text: Text) -> Bound {
    match rng.below(4) {
        0 => Bound::Int(rng.number() as i64 >> rng.below(64)),
        1 => Bound::Bool(rng.one_in(2)),
        2 => Bound::Own,
        _ => Bound::Str(text(rng)),
    }
}

fn any_saying(rng: &mut Rng, text: Text) -> Says {
    match rng.below(8) {
        0..=2 => Says::Message(text(rng)),
        3 => Says::Violated,
        4 => Says::NoText,
        _ => Says::Refined(text(rng), 1 + rng.below(6) as u16, any_bound(rng, text)),
    }
}

fn any_plan(rng: &mut Rng, most: usize, text: Text) -> Plan {
    let callee = text(rng);
    let spans = (0..rng.below(most + 1)).map(|_| any_span(rng)).collect();
    let says = (0..rng.below(4)).map(|_| any_saying(rng, text)).collect();
    Plan { callee, spans, says }
}

/// Some functions and calls of them; a few images have about as many reports as
/// fill pages.
pub fn any(rng: &mut Rng) -> Image {
    any_with(rng, any_low_text)
}

/// The same as the stored ones were drawn, with fewer scalars that print as `?`.
pub fn any_stored(rng: &mut Rng) -> Image {
    any_with(rng, any_text)
}

fn any_with(rng: &mut Rng, text: Text) -> Image {
    let mut board = Board::new(rng.number() as u32);
    if rng.one_in(10) {
        let count = rng.pick(&COUNTS).saturating_sub(rng.below(3));
        let spans = (0..count).map(|_| any_span(rng)).collect();
        board.put(&Plan { callee: text(rng), spans, says: vec![Says::Message(text(rng))] });
    }
    for _ in 0..rng.below(5) {
        let most = rng.pick(&[1, 1, 2, 12, 40]);
        board.put(&any_plan(rng, most, text));
        if rng.one_in(6) {
            board.stranger(&text(rng), any_span(rng));
        }
    }
    board.finished()
}

/// As many reports as there can be, of as many bytes: 256 calls of 512, each
/// callee, message and parameter of scalars of four bytes, and the longest spans.
pub fn widest() -> Image {
    const MOST: usize = LIMITS[5];
    const EQ: u16 = 5;
    // More than a message has columns.
    const SCALARS: usize = 65;
    let mut builder = Builder::new(1);
    builder.image.text = repeated('\u{10ffff}', MOST + SCALARS).into_bytes();
    let text = |text: usize| (4 * text as u16, 4 * SCALARS as u16);
    builder.image.texts = (0..MOST).map(text).collect();
    let (empty, never) = (builder.string(0, ""), builder.node(0, "Bool", &[0.into()]));
    for name in 0..MOST as u16 {
        builder.parameter(name, Some((EQ, Operand::Str(name))));
        let message = builder.node(0, "String", &[name.into()]);
        builder.clause(never, Some(message));
    }
    let all = (0, MOST as u16);
    let (parameters, requires, ensures) = (all, all, (0, 0));
    let (name, span, result, body) = (0, 1, false, Value::Range(0, 0));
    builder.function(Function { name, span, parameters, result, body, requires, ensures });
    let arguments = builder.list(&[empty; MOST]);
    for call in 0..LIMITS[8] as u32 {
        builder.call(0, u32::MAX - call, arguments);
    }
    builder.image
}

//! Texts compared in a run: verdicts written by hand, and what the listed
//! functions have.

use rlimg::code;
use rlimg::decode::decode;
use rlimg::encode::encode;
use rlimg::fold::Folded::{Bool, Int};
use rlimg::fold::{value_of, Names};
use rlimg::image::{Image, Record};
use rlimg::run::{Ending, Outcome, Program, Value, BUDGET};
use rlimg::runs::texts;
use rlimg::schema::Section;
use std::cmp::Ordering;
use std::collections::HashSet;

/// Two texts, and what ==, !=, <, <=, > and >= say of them.
const TABLE: [(&str, &str, [bool; 6]); 22] = [
    ("", "", [true, false, false, true, false, true]),
    ("", "a", [false, true, true, true, false, false]),
    ("a", "", [false, true, false, false, true, true]),
    ("", "\0", [false, true, true, true, false, false]),
    ("modem-1", "modem-1", [true, false, false, true, false, true]),
    ("modem-1", "modem-2", [false, true, true, true, false, false]),
    ("modem-01", "modem-01", [true, false, false, true, false, true]),
    ("modem-02", "modem-01", [false, true, false, false, true, true]),
    ("modem-01", "modem-010", [false, true, true, true, false, false]),
    ("modem-01\0", "modem-01", [false, true, false, false, true, true]),
    ("modem-011", "modem-012", [false, true, true, true, false, false]),
    ("modem-02~~~~~~~~", "modem-03        ", [false, true, true, true, false, false]),
    ("b               ", "a~~~~~~~~~~~~~~~", [false, true, false, false, true, true]),
    ("modem-north-0123", "modem-north-0123", [true, false, false, true, false, true]),
    ("modem-north-0123", "modem-north-01234", [false, true, true, true, false, false]),
    ("modem-north-01239", "modem-north-01234", [false, true, false, false, true, true]),
    ("modem-n\x7f", "modem-n\u{e9}", [false, true, true, true, false, false]),
    ("modem-n\u{e9}rth", "modem-n\x7f~rth", [false, true, false, false, true, true]),
    ("\x7f~~~~~~~", "\u{e9}      ", [false, true, true, true, false, false]),
    ("\u{10000}north", "\u{ffff}~north", [false, true, false, false, true, true]),
    (
        "modem-north-ring-0000000",
        "modem-north-ring-0000000",
        [true, false, false, true, false, true],
    ),
    (
        "modem-north-ring-00000009",
        "modem-north-ring-0000001",
        [false, true, true, true, false, false],
    ),
];

/// A body that returns the operator's verdict on the texts, which have bytes of
/// their own, and the node of it.
fn compared(left: &str, operator: u16, right: &str) -> (Image, u16) {
    let mut node = 0;
    let image = code::image(&[], |code| {
        *code = code::Code::default();
        let (left, right) = (code.string(left), code.string(right));
        node = code.binary(left, operator, right);
        vec![code.give(node)]
    });
    (image, node)
}

fn run(image: &Image, function: usize) -> Outcome {
    Program::new(image).run(function as u32, &[], BUDGET).expect("no refusal")
}

#[test]
fn verdicts() {
    for (left, right, verdicts) in TABLE {
        for (operator, verdict) in texts::OPERATORS.zip(verdicts) {
            let (image, node) = compared(left, operator, right);
            let value = Some(Bool(verdict));
            let ending = Ending::Returned(Value::Plain(value));
            let what = format!("{left:?}, operator {operator}, {right:?}");
            assert_eq!(run(&image, 0), Outcome { ending, steps: 4 }, "{what}");
            assert_eq!(value_of(&image, &Names::new(), node), value, "{what}");
        }
    }
}

const LENGTHS: [usize; 11] = [0, 1, 7, 8, 9, 15, 16, 17, 23, 24, 25];

/// What is to be seen of two texts under each operator.
#[derive(Debug, PartialEq, Eq, Hash)]
enum Seen {
    /// Both are the same text, of that length.
    Itself(usize),
    /// The same bytes at two offsets.
    Equal(usize),
    /// The shorter one is the start of the other.
    Start([usize; 2]),
    /// Of one length, with one byte apart; the left one is less or greater.
    Apart(usize, usize, bool),
    /// The first byte apart is less, all later bytes are greater.
    OtherWay(usize),
    /// The first bytes apart are 0x7f and 0xc3, or the other way round.
    High(usize, bool),
}

fn seen(image: &Image, [left, right]: [u16; 2]) -> Vec<Seen> {
    let [a, b] = [left, right].map(|text| image.text_of(text).expect("a text of the image"));
    let pairs = || a.iter().zip(b);
    let Some(place) = pairs().position(|(a, b)| a != b) else {
        return vec![match (left == right, a.len() == b.len()) {
            (true, _) => Seen::Itself(a.len()),
            (_, true) => Seen::Equal(a.len()),
            _ => Seen::Start([a.len(), b.len()]),
        }];
    };
    let less = a[place] < b[place];
    let mut later = pairs().skip(place + 1);
    let mut all = Vec::new();
    if a.len() == b.len() && later.clone().all(|(a, b)| a == b) {
        all.push(Seen::Apart(a.len(), place, less));
    }
    if less && later.len() > 0 && later.all(|(a, b)| a > b) {
        all.push(Seen::OtherWay(place));
    }
    if matches!((a[place], b[place]), (0x7f, 0xc3) | (0xc3, 0x7f)) {
        all.push(Seen::High(place, less));
    }
    all
}

/// What must be seen.
fn wanted() -> Vec<Seen> {
    let mut all: Vec<Seen> =
        LENGTHS.into_iter().flat_map(|n| [Seen::Itself(n), Seen::Equal(n)]).collect();
    for length in LENGTHS {
        let others = LENGTHS.into_iter().filter(|other| *other != length);
        all.extend(others.map(|other| Seen::Start([length, other])));
        let places = [0, 7, 8, length.wrapping_sub(1)].into_iter().filter(|place| *place < length);
        all.extend(
            places.flat_map(|place| [true, false].map(|less| Seen::Apart(length, place, less))),
        );
    }
    all.extend([0, 7, 8, 16].map(Seen::OtherWay));
    all.extend(
        [0, 7, 8, 15]
            .into_iter()
            .flat_map(|place| [true, false].map(|less| Seen::High(place, less))),
    );
    all
}

/// The node that a function of one statement returns.
fn given<'i>(image: &'i Image, function: &Record) -> &'i Record {
    let (first, count) = function.range(4);
    let [body] = *image.list(first, count).expect("a list of the image") else {
        panic!("a body of {count} statements");
    };
    image.node(image.of(Section::Statement)[usize::from(body)].number(1))
}

#[test]
fn listed_pairs_are_of_every_kind() {
    let (mut all, mut images) = (HashSet::new(), texts::images());
    images.pop();
    for image in &images {
        assert_eq!(decode(&encode(image)).as_ref(), Ok(image));
        for function in image.of(Section::Function) {
            let node = given(image, function);
            let pair = [1, 3].map(|at| image.node(node.number(at)).number(1) as u16);
            all.extend(seen(image, pair).into_iter().map(|seen| (node.number(2), seen)));
        }
    }
    for (operator, wanted) in
        (6..12).flat_map(|operator| wanted().into_iter().map(move |w| (operator, w)))
    {
        let row = (operator, wanted);
        assert!(all.contains(&row), "not listed: {row:?}");
    }
}

/// The last image gives each text as a name.
#[test]
fn listed_names_are_told_apart() {
    let image = texts::images().pop().expect("an image");
    assert_eq!(decode(&encode(&image)).as_ref(), Ok(&image));
    let count = texts::listed().len();
    assert_eq!(image.of(Section::Function).len(), count);
    for function in 0..count {
        let given = Ending::Returned(Value::Plain(Some(Int(function as i64))));
        assert_eq!(run(&image, function).ending, given);
    }
}

/// An order by words of eight bytes and, where they are equal, by the rest.
fn by_words(
    a: &[u8],
    b: &[u8],
    word: fn([u8; 8], [u8; 8]) -> Ordering,
    rest: fn(&[u8], &[u8]) -> Ordering,
) -> Ordering {
    match (a.first_chunk(), b.first_chunk()) {
        (Some(x), Some(y)) => word(*x, *y).then_with(|| by_words(&a[8..], &b[8..], word, rest)),
        _ => rest(a, b),
    }
}

fn right_word(a: [u8; 8], b: [u8; 8]) -> Ordering {
    u64::from_be_bytes(a).cmp(&u64::from_be_bytes(b))
}

fn padded(text: &[u8]) -> u64 {
    text.iter().chain(&[0; 8]).take(8).fold(0, |word, byte| word << 8 | u64::from(*byte))
}

/// Orders that are easily taken for the right one.
const WRONG: [(&str, fn(&[u8], &[u8]) -> Ordering); 7] = [
    ("last byte first", |a, b| {
        by_words(a, b, |a, b| u64::from_le_bytes(a).cmp(&u64::from_le_bytes(b)), <[u8]>::cmp)
    }),
    ("signed words", |a, b| {
        by_words(a, b, |a, b| i64::from_be_bytes(a).cmp(&i64::from_be_bytes(b)), <[u8]>::cmp)
    }),
    ("halves swapped", |a, b| {
        by_words(a, b, |a, b| a[4..].cmp(&b[4..]).then(a.cmp(&b)), <[u8]>::cmp)
    }),
    ("without the rest", |a, b| by_words(a, b, right_word, |a, b| a.len().cmp(&b.len()))),
    ("signed rest", |a, b| {
        by_words(a, b, right_word, |a, b| {
            a.iter().map(|x| *x as i8).cmp(b.iter().map(|x| *x as i8))
        })
    }),
    ("the rest with zeros", |a, b| by_words(a, b, right_word, |a, b| padded(a).cmp(&padded(b)))),
    ("length first", |a, b| a.len().cmp(&b.len()).then(a.cmp(b))),
];

#[test]
fn listed_texts_show_a_wrong_order() {
    let texts = texts::listed();
    let pairs =
        || texts.iter().flat_map(|a| texts.iter().map(move |b| (a.as_bytes(), b.as_bytes())));
    assert!(pairs().all(|(a, b)| by_words(a, b, right_word, <[u8]>::cmp) == a.cmp(b)));
    for (name, wrong) in WRONG {
        assert!(pairs().any(|(a, b)| wrong(a, b) != a.cmp(b)), "{name} is not shown");
    }
}

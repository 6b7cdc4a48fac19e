//! Names and texts: bound twice, bound later, alike but for a byte.

use crate::rule::{BANG_EQUAL, COMPARE, call, clause, compare, function, parameters};
use rlimg::builder::{Builder, Operand};
use rlimg::image::{Image, Value};

const GT: u16 = 1;
const EQ: u16 = 5;
const NE: u16 = 6;
const LESS: u16 = 8;

pub fn images() -> Vec<Image> {
    let mut images = Vec::new();
    for names in [["a", "b", "c"], ["a", "a", "b"], ["a", "b", "a"], ["b", "b", "b"]] {
        images.extend([Refined::Number, Refined::Next, Refined::Mixed].map(|refined| {
            let mut builder = Builder::new(1);
            arguments(&mut builder, names, refined);
            builder.image
        }));
    }
    images.extend((0..6).map(|operator| alike_texts(COMPARE + operator)));
    images.extend([alike_names(), long(), many_texts()]);
    images
}

/// What the parameters' refinements compare with.
#[derive(Clone, Copy)]
enum Refined {
    Number,
    Next,
    Mixed,
}

impl Refined {
    fn of(self, builder: &mut Builder, names: [&str; 3], position: usize) -> (u16, Operand) {
        match (self, position) {
            (Refined::Number, _) => (NE, Operand::Integer(1)),
            (Refined::Next, _) => (NE, Operand::Param(builder.text(names[(position + 1) % 3]))),
            (Refined::Mixed, 0) => (EQ, Operand::Param(builder.text(names[0]))),
            (Refined::Mixed, 1) => (EQ, Operand::Param(builder.text("d"))),
            (Refined::Mixed, _) => (GT, Operand::Param(builder.text(names[0]))),
        }
    }
}

/// Three parameters; every argument is in turn 1, 2, a, b, c and Null. The
/// clauses say which name is 1, and which is 2.
fn arguments(builder: &mut Builder, names: [&str; 3], refined: Refined) {
    for (position, name) in names.into_iter().enumerate() {
        let refined = refined.of(builder, names, position);
        let name = builder.text(name);
        builder.parameter(name, Some(refined));
    }
    let [one, two] = [1, 2].map(|number| builder.integer(1, number));
    let null = builder.node(1, "Null", &[]);
    let [a, b, c] = ["a", "b", "c"].map(|name| {
        let node = builder.identifier(1, name);
        compare(builder, [node, BANG_EQUAL, one], &format!("{name} is 1"));
        compare(builder, [node, BANG_EQUAL, two], &format!("{name} is 2"));
        node
    });
    let name = function(builder);
    let each = [one, two, a, b, c, null];
    for (first, second) in each.iter().flat_map(|first| each.map(|second| (*first, second))) {
        for third in each {
            call(builder, name, &[first, second, third]);
        }
    }
}

/// Texts over the same bytes: some the same, some the start of another, some
/// different in one byte only.
fn texts(builder: &mut Builder) -> u16 {
    builder.image.text = ["a".repeat(40), "b".repeat(32), "\u{e9}\u{ea}".into()].concat().into();
    for length in [0, 1, 7, 8, 9, 15, 16, 17, 31, 32] {
        for offset in [0, 1, 8, 24, 32] {
            builder.image.texts.push((offset, length));
        }
    }
    builder.image.texts.extend([(72, 2), (74, 2), (72, 4), (64, 12)]);
    builder.image.texts.len() as u16
}

/// `f(a, b)` requires `a operator b`: each text beside itself and three others.
fn alike_texts(operator: u16) -> Image {
    let mut builder = Builder::new(1);
    let texts = texts(&mut builder);
    let string = |text: u16| [Value::from(text)];
    let nodes: Vec<u16> = (0..texts).map(|text| builder.node(1, "String", &string(text))).collect();
    let [a, b] = parameters(&mut builder, ["a", "b"]);
    let condition = builder.binary(2, a, operator, b);
    clause(&mut builder, condition, "not so");
    let name = function(&mut builder);
    for (left, node) in nodes.iter().enumerate() {
        for apart in [0, 1, 5, 23] {
            call(&mut builder, name, &[*node, nodes[(left + apart) % nodes.len()]]);
        }
    }
    builder.image
}

/// A parameter for each text; the clauses say of each name whether its value
/// is its own number, and whether it is no less.
fn alike_names() -> Image {
    let mut builder = Builder::new(1);
    let texts = texts(&mut builder);
    let mut arguments = Vec::new();
    for text in 0..texts {
        builder.parameter(text, (text % 3 == 0).then_some((NE, Operand::Param(text))));
        arguments.push(builder.integer(1, i64::from(text)));
    }
    for text in 0..texts {
        let (number, name) = (arguments[usize::from(text)], &[text.into()]);
        let name = builder.node(1, "Identifier", name);
        compare(&mut builder, [name, BANG_EQUAL, number], "its own");
        compare(&mut builder, [name, LESS, number], "no less");
    }
    let name = function(&mut builder);
    call(&mut builder, name, &arguments);
    call(&mut builder, name, &arguments[..arguments.len() / 2]);
    arguments.reverse();
    call(&mut builder, name, &arguments);
    builder.image
}

/// Names, texts and messages of 15,000 bytes, of which only the last differ.
fn long() -> Image {
    let mut builder = Builder::new(1);
    builder.image.text = ["a".repeat(15_000), "b".repeat(384)].concat().into();
    builder.image.texts = (0..24).chain(0..4).map(|text| (16 * text, 15_000)).collect();
    let mut arguments = Vec::new();
    for text in 0..8 {
        builder.parameter(text, (text == 0).then_some((NE, Operand::Param(text))));
        arguments.push(builder.integer(1, i64::from(text)));
    }
    builder.parameter(8, Some((EQ, Operand::Str(9))));
    arguments.push(builder.node(1, "String", &[Value::from(10)]));
    for text in (0..10).chain(24..28) {
        let name = builder.node(1, "Identifier", &[Value::from(text)]);
        let message = builder.node(1, "String", &[Value::from(text)]);
        let condition = builder.binary(1, name, BANG_EQUAL, arguments[usize::from(text % 8)]);
        builder.clause(condition, Some(message));
    }
    for pair in [[9, 10], [10, 9], [9, 9], [0, 24], [0, 23]] {
        let [left, right] = pair.map(|text| builder.node(1, "String", &[Value::from(text)]));
        for operator in COMPARE..12 {
            compare(&mut builder, [left, operator, right], &format!("{pair:?} {operator}"));
        }
    }
    let name = function(&mut builder);
    call(&mut builder, name, &arguments);
    builder.image
}

/// Names and texts by small and large numbers.
fn many_texts() -> Image {
    let mut builder = Builder::new(1).interning();
    for number in 0..2_000 {
        builder.text(&number.to_string());
    }
    let mut arguments = Vec::new();
    for text in [0, 1, 255, 256, 257, 1_023, 1_024, 1_999] {
        builder.parameter(text, Some((NE, Operand::Str(text))));
        let [string, name] = ["String", "Identifier"].map(|kind| {
            let text = Value::from(text);
            builder.node(1, kind, &[text])
        });
        compare(&mut builder, [name, BANG_EQUAL, string], "its own");
        arguments.push(string);
    }
    let name = function(&mut builder);
    call(&mut builder, name, &arguments);
    builder.image
}

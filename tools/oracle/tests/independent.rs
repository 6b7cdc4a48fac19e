//! The independent folder and prover against the original.
#![cfg(original)]

use oracle::{independent_reports, marked, pairs, picked, reports, steps, tables};
use rlimg::builder::{Builder, Function};
use rlimg::decode::decode;
use rlimg::encode::encode;
use rlimg::fold::{self, Folded, Names};
use rlimg::image::{Image, Value};
use rlimg::rng::Rng;
use rlimg::schema::Section;
use rlimg::{hostile, rules};
use std::collections::HashSet;

const PROVEN: &str = "contract violation (proven at compile time): ";
/// A text that no image here has.
const NOTHING: &str = "nothing at all";
const PLUS: u16 = 1;
const STAR: u16 = 3;
const SLASH: u16 = 4;
const BANG_EQUAL: u16 = 7;

fn images(count: usize) -> impl Iterator<Item = Image> {
    let mut rng = Rng::new(9);
    let generated = (0..count).map(move |number| rules::image(&mut rng, [1, 2, 4, 12][number % 4]));
    let marked = marked::cases().into_iter().map(|case| case.image);
    marked.chain(tables::images()).chain(picked::images()).chain(generated)
}

/// A literal of the value; any will do where there is none.
fn literal(builder: &mut Builder, value: Option<Folded>) -> u16 {
    match value {
        None => builder.node(0, "Null", &[]),
        Some(Folded::Int(value)) => builder.integer(0, value),
        Some(Folded::Float(value)) => builder.node(0, "Float", &[Value::Number(value.to_bits())]),
        Some(Folded::Str(text)) => builder.node(0, "String", &[text.into()]),
        Some(Folded::Bool(value)) => builder.node(0, "Bool", &[u16::from(value).into()]),
    }
}

fn clause(builder: &mut Builder, left: u16, right: u16, message: &str) {
    let unequal = builder.binary(0, left, BANG_EQUAL, right);
    let message = builder.string(0, message);
    builder.clause(unequal, Some(message));
}

/// Only calls f(NOTHING, node, value), for each node, with parameters a, a, b.
/// The reports of a call say which of a's value and b's are the same, whether
/// a's is a whole number, and whether it is still NOTHING.
fn asking(image: &Image, values: &[Option<Folded>]) -> Image {
    let mut builder = Builder::new(1);
    builder.image = image.clone();
    for section in [Section::Parameter, Section::Clause, Section::Function, Section::Call] {
        builder.image.of_mut(section).clear();
    }
    for name in ["~a", "~a", "~b"] {
        let name = builder.text(name);
        builder.parameter(name, None);
    }
    let (a, b) = (builder.identifier(0, "~a"), builder.identifier(0, "~b"));
    let nothing = builder.string(0, NOTHING);
    clause(&mut builder, a, b, "equal");
    clause(&mut builder, a, nothing, "none");
    // 1 / (a * 0 + 2) is 0 where a is a whole number.
    let [zero, one, two] = [0, 1, 2].map(|number| builder.integer(0, number));
    let product = builder.binary(0, a, STAR, zero);
    let sum = builder.binary(0, product, PLUS, two);
    let half = builder.binary(0, one, SLASH, sum);
    clause(&mut builder, half, zero, "whole");
    let (name, body, all) = (builder.text("~f"), builder.list(&[]), builder.image.counts()[6]);
    let (parameters, requires, ensures) = ((0, 3), (0, all as u16), (0, 0));
    let (span, result) = (0, false);
    builder.function(Function { name, span, parameters, result, body, requires, ensures });
    for (node, value) in values.iter().enumerate() {
        let value = literal(&mut builder, *value);
        let arguments = builder.list(&[nothing, node as u16, value]);
        builder.call(name, 0, arguments);
    }
    builder.image
}

/// What the reports of one call must say; a NaN is equal to nothing.
fn expected(value: Option<Folded>) -> &'static [&'static str] {
    match value {
        None => &["none"],
        Some(Folded::Int(_)) => &["equal", "whole"],
        Some(Folded::Float(value)) if value.is_nan() => &[],
        Some(_) => &["equal"],
    }
}

#[test]
fn the_folder_agrees_with_the_original() {
    let mut seen = HashSet::new();
    for image in images(500) {
        let values = fold::values(&image, &Names::new());
        let mut said = vec![Vec::new(); values.len()];
        for report in reports(&asking(&image, &values)) {
            let what = report.message.strip_prefix(PROVEN).unwrap().to_string();
            said[report.call as usize].push(what);
        }
        for (node, (value, said)) in values.iter().zip(&said).enumerate() {
            let kind = image.of(Section::Expression)[node].kind;
            assert_eq!(said, expected(*value), "kind {kind}, {value:?}");
            seen.insert((kind, said.join(" ")));
        }
    }
    for (kind, said) in [(32, ""), (32, "none"), (32, "equal"), (32, "equal whole"), (33, "none")] {
        assert!(seen.contains(&(kind, said.to_string())), "kind {kind}: {said}");
    }
}

#[test]
fn the_prover_agrees_with_the_original() {
    let mut count = 0;
    for image in images(3_000).chain(pairs::images()) {
        assert!(decode(&encode(&image)).as_ref() == Ok(&image), "not accepted as it is");
        let ours = independent_reports(&image);
        count += ours.len();
        assert_eq!(ours, reports(&image));
    }
    assert!(count > 1_000);
}

#[test]
fn the_steps_of_shared_sums_are_counted() {
    // f(1.0) and f(sum): arguments of 1 and 15 nodes, twice each, and a
    // condition of 9.
    assert_eq!(steps(&hostile::doubled(4)), 2 + 9 + 30 + 9);
    assert!(steps(&hostile::doubled(68)) > 1 << 60);
}

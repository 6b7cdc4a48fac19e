//! What the original's `const_eval` itself gives, and the independent folder
//! against it.
#![cfg(original)]

use oracle::{ConstVal, Original, marked, pairs, picked, same_value, tables};
use rlimg::builder::Builder;
use rlimg::fold::{self, Names};
use rlimg::image::{Image, Value};
use rlimg::rng::Rng;
use rlimg::rules::Literal::{self, Bool, Float, Int, Str};
use rlimg::runs::texts;
use rlimg::{random, rules, small};

const PLUS: u16 = 1;
const MINUS: u16 = 2;
const STAR: u16 = 3;
const SLASH: u16 = 4;
const LESS: u16 = 8;
const ZERO: u64 = 0;
const MINUS_ZERO: u64 = 1 << 63;

/// What both fold a node to; panics where they differ.
fn value(image: &Image, node: u16) -> Option<ConstVal> {
    let ours = fold::words(fold::value_of(image, &Names::new(), node));
    let theirs = Original::new(image).const_eval(usize::from(node));
    assert!(same_value(image, ours, &theirs), "{ours:x?}, the original's {theirs:x?}");
    theirs
}

fn literal(literal: Literal) -> Option<ConstVal> {
    let mut builder = Builder::new(1);
    let node = literal.node(&mut builder, 0);
    value(&builder.image, node)
}

fn binary(left: Literal, operator: u16, right: Literal) -> Option<ConstVal> {
    let mut builder = Builder::new(1);
    let (left, right) = (left.node(&mut builder, 0), right.node(&mut builder, 0));
    let node = builder.binary(0, left, operator, right);
    value(&builder.image, node)
}

fn negated(operand: Literal) -> Option<ConstVal> {
    let mut builder = Builder::new(1);
    let operand = operand.node(&mut builder, 0);
    let node = builder.node(0, "Unary", &[MINUS.into(), operand.into()]);
    value(&builder.image, node)
}

fn bits(value: Option<ConstVal>) -> u64 {
    match value {
        Some(ConstVal::Float(bits)) => bits,
        other => panic!("no float: {other:?}"),
    }
}

#[test]
fn zeros_have_their_signs() {
    assert_eq!(bits(literal(Float(0.0))), ZERO);
    assert_eq!(bits(literal(Float(-0.0))), MINUS_ZERO);
    assert_eq!(bits(negated(Float(0.0))), MINUS_ZERO);
    assert_eq!(bits(negated(Float(-0.0))), ZERO);
    assert_eq!(bits(binary(Float(0.0), STAR, Float(-1.0))), MINUS_ZERO);
    assert_eq!(bits(binary(Int(0), STAR, Float(-1.0))), MINUS_ZERO);
    assert_eq!(bits(binary(Int(-1), STAR, Float(0.0))), MINUS_ZERO);
    assert_eq!(bits(binary(Float(-0.0), STAR, Float(-1.0))), ZERO);
    assert_eq!(bits(binary(Float(0.0), SLASH, Float(-5.0))), MINUS_ZERO);
    assert_eq!(bits(binary(Float(-1.0), SLASH, Float(f64::INFINITY))), MINUS_ZERO);
    assert_eq!(bits(binary(Float(-0.0), PLUS, Float(-0.0))), MINUS_ZERO);
    assert_eq!(bits(binary(Float(-0.0), PLUS, Float(0.0))), ZERO);
    assert_eq!(bits(binary(Float(-0.0), PLUS, Int(0))), ZERO);
    assert_eq!(bits(binary(Float(-0.0), MINUS, Int(0))), MINUS_ZERO);
    assert_eq!(bits(binary(Float(1.0), MINUS, Float(1.0))), ZERO);
    assert_eq!(bits(binary(Float(-5e-324), STAR, Float(0.5))), MINUS_ZERO);
    let mut builder = Builder::new(1);
    let short = builder.node(0, "SFloat", &[Value::Number(0x8000_0000)]);
    assert_eq!(bits(value(&builder.image, short)), MINUS_ZERO);
}

#[test]
fn a_nan_is_a_value_and_computes_to_none() {
    let is_nan = |value| f64::from_bits(bits(value)).is_nan();
    let (nan, infinity) = (Float(f64::NAN), Float(f64::INFINITY));
    assert!(is_nan(literal(nan)) && is_nan(negated(nan)));
    assert!(is_nan(binary(infinity, MINUS, infinity)));
    assert!(is_nan(binary(infinity, STAR, Int(0))));
    assert_eq!(binary(nan, PLUS, Float(1.0)), None);
    assert_eq!(binary(nan, LESS, Float(1.0)), None);
    assert_eq!(binary(Float(1.0), SLASH, Float(-0.0)), None);
}

#[test]
fn the_other_sorts_are_told_apart() {
    assert_eq!(literal(Int(i64::MIN)), Some(ConstVal::Int(i64::MIN)));
    assert_eq!(negated(Int(i64::MIN)), None);
    assert_eq!(negated(Int(0)), Some(ConstVal::Int(0)));
    assert_eq!(literal(Str("\u{e9}")), Some(ConstVal::Str(vec![0xc3, 0xa9])));
    assert_eq!(literal(Bool(true)), Some(ConstVal::Bool(true)));
    assert_eq!(binary(Str("a"), LESS, Str("b")), Some(ConstVal::Bool(true)));
    assert_eq!(binary(Bool(true), LESS, Bool(false)), None);
}

/// The original folds none of the small constants, and as Integer each of them
/// to its whole number.
#[test]
fn small_constants_are_handed_over_as_integers() {
    for small in small::all().into_iter().chain([("Byte", 5)]) {
        let mut builder = Builder::new(1);
        let node = small::node(&mut builder, 0, small);
        let own = Original::of_own_kinds(&builder.image).const_eval(usize::from(node));
        assert_eq!(own, None, "{small:?}");
        assert_eq!(value(&builder.image, node), Some(ConstVal::Int(small.1)), "{small:?}");
    }
}

/// Another sign, sort, payload or text.
#[test]
fn a_difference_is_seen() {
    let mut builder = Builder::new(1);
    let [text, same, other] = ["a", "a", "b"].map(|text| u64::from(builder.text(text)));
    let same_value = |words, value| same_value(&builder.image, words, &Some(value));
    let string = || ConstVal::Str(vec![b'a']);
    assert!(same_value([3, text], string()) && same_value([3, same], string()));
    for words in [[3, other], [3, 70_000], [3, text + (1 << 16)], [1, text], [0, 0], [5, 0]] {
        assert!(!same_value(words, string()), "{words:?}");
    }
    for (value, words) in [(ZERO, [2, MINUS_ZERO]), (MINUS_ZERO, [2, ZERO]), (ZERO, [1, ZERO])] {
        assert!(!same_value(words, ConstVal::Float(value)), "{words:?}");
    }
    let nan = f64::NAN.to_bits();
    assert!(same_value([2, nan | 1 << 63 | 1], ConstVal::Float(nan)));
    assert!(!same_value([2, f64::INFINITY.to_bits()], ConstVal::Float(nan)));
    assert!(!same_value([2, nan], ConstVal::Float(f64::INFINITY.to_bits())));
    assert!(!same_value([4, 0], ConstVal::Bool(true)) && !same_value([4, 2], ConstVal::Bool(true)));
    assert!(!same_value([1, 2], ConstVal::Int(1)));
    assert!(!oracle::same_value(&builder.image, [1, 0], &None));
    assert!(!oracle::same_value(&builder.image, [0, 1], &None));
}

fn images(count: usize) -> impl Iterator<Item = Image> {
    let mut rng = Rng::new(7);
    let generated = (0..count).map(move |number| match number % 5 {
        4 => random::image(&mut rng, random::Shape::of(6, false)),
        size => rules::image(&mut rng, [1, 2, 4, 12][size]),
    });
    let marked = marked::cases().into_iter().map(|case| case.image);
    let listed = marked.chain(tables::images()).chain(picked::images()).chain(pairs::images());
    listed.chain(texts::images()).chain(generated)
}

/// Every node that does not take the original too long.
#[test]
fn the_folder_agrees_with_const_eval() {
    let (mut count, mut minus_zeros) = (0, 0);
    for image in images(1_500) {
        let original = Original::new(&image);
        let values = fold::values(&image, &Names::new());
        for (node, (value, size)) in values.iter().zip(oracle::sizes(&image)).enumerate() {
            if size > 1_000 {
                continue;
            }
            let (ours, theirs) = (fold::words(*value), original.const_eval(node));
            assert!(same_value(&image, ours, &theirs), "{ours:x?}, the original's {theirs:x?}");
            minus_zeros += usize::from(ours == [2, MINUS_ZERO]);
            count += 1;
        }
    }
    assert!(count > 100_000 && minus_zeros > 1_000, "{count}, {minus_zeros}");
}

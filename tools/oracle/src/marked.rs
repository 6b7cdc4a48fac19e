//! The marked cases of folding and proving, as images with the lines that the
//! printer must print for them.

use crate::rule::{self, BANG_EQUAL, COMPARE, MINUS, binary, call, compare, unary};
use rlimg::builder::{Builder, Operand};
use rlimg::image::{Image, Value};
use rlimg::rules::Literal::{self, Bool, Float, Int, Str};

const PLUS: u16 = 1;
const SLASH: u16 = 4;
const LESS: u16 = 8;
const GT: u16 = 1;

pub struct Case {
    /// The number of the marked case.
    pub number: u32,
    pub image: Image,
    pub lines: String,
}

impl Case {
    /// A case with reports of its only call.
    fn new(number: u32, image: Image, messages: &[&str]) -> Case {
        let line =
            |message| format!("0 10 contract violation (proven at compile time): {message}\n");
        Case { number, image, lines: messages.iter().map(line).collect() }
    }
}

pub fn cases() -> Vec<Case> {
    let mut cases = folding();
    cases.extend([argument_named_before(), argument_named_behind()]);
    cases
}

fn folding() -> Vec<Case> {
    let (least, most) = (Int(i64::MIN), Int(i64::MAX));
    vec![
        without_value(1, least, |builder| {
            let operand = least.node(builder, 2);
            unary(builder, MINUS, operand)
        }),
        without_value(2, least, |builder| binary(builder, most, PLUS, Int(1))),
        with_value(3, Int(-3), |builder| binary(builder, Int(-7), SLASH, Int(2))),
        with_value(3, Int(-3), |builder| {
            let seven = Int(7).node(builder, 2);
            let (left, right) = (unary(builder, MINUS, seven), Int(2).node(builder, 2));
            builder.binary(2, left, SLASH, right)
        }),
        without_value(4, Int(0), |builder| binary(builder, Int(7), SLASH, Int(0))),
        without_value(5, most, |builder| unsigned(builder, 9_223_372_036_854_775_808)),
        with_value(5, most, |builder| unsigned(builder, 9_223_372_036_854_775_807)),
        with_value(6, Bool(true), |builder| {
            let (left, right) = (Int(9_007_199_254_740_993), Float(9_007_199_254_740_992.0));
            binary(builder, left, COMPARE, right)
        }),
        without_value(7, Float(f64::NEG_INFINITY), |builder| {
            binary(builder, Float(1.0), SLASH, Float(-0.0))
        }),
        without_value(8, Bool(false), |builder| binary(builder, Bool(true), LESS, Bool(false))),
        with_value(8, Bool(true), |builder| binary(builder, Str("a"), LESS, Str("b"))),
        with_value(9, Int(5), |builder| builder.node(2, "Byte", &[5.into()])),
    ]
}

fn with_value(number: u32, value: Literal, expression: impl Fn(&mut Builder) -> u16) -> Case {
    Case::new(number, asking(value, expression), &["equal", "some", "asked"])
}

/// The value is the one that a wrong answer would have.
fn without_value(number: u32, value: Literal, expression: impl Fn(&mut Builder) -> u16) -> Case {
    Case::new(number, asking(value, expression), &["asked"])
}

/// Clauses whose reports say what the expression folds to.
fn asking(value: Literal, expression: impl Fn(&mut Builder) -> u16) -> Image {
    let mut builder = Builder::new(1).interning();
    let expression = expression(&mut builder);
    let value = value.node(&mut builder, 2);
    compare(&mut builder, [expression, BANG_EQUAL, value], "equal");
    compare(&mut builder, [expression, COMPARE, value], "unequal");
    compare(&mut builder, [expression, BANG_EQUAL, expression], "some");
    compare(&mut builder, [value, BANG_EQUAL, value], "asked");
    called(builder, &[])
}

/// f(1, a), parameters a and b.
fn argument_named_before() -> Case {
    let mut builder = Builder::new(1).interning();
    let [a, b] = rule::parameters(&mut builder, ["a", "b"]);
    let one = builder.integer(2, 1);
    compare(&mut builder, [b, BANG_EQUAL, one], "b is 1");
    compare(&mut builder, [b, COMPARE, one], "b is another");
    Case::new(12, called(builder, &[one, a]), &["b is 1"])
}

/// f(y, 5), parameters x > 9 and y.
fn argument_named_behind() -> Case {
    let mut builder = Builder::new(1).interning();
    let x = builder.text("x");
    builder.parameter(x, Some((GT, Operand::Integer(9))));
    let [y] = rule::parameters(&mut builder, ["y"]);
    let five = builder.integer(2, 5);
    Case::new(13, called(builder, &[y, five]), &["refinement failed: x > 9"])
}

fn called(mut builder: Builder, arguments: &[u16]) -> Image {
    let name = rule::function(&mut builder);
    call(&mut builder, name, arguments);
    builder.image
}

fn unsigned(builder: &mut Builder, value: u64) -> u16 {
    builder.node(2, "UInt", &[Value::Number(value)])
}

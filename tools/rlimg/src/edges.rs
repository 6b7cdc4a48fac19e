//! Images at the limits of the format, or one past them.

use crate::builder::{Builder, Function, Operand};
use crate::encode::encode;
use crate::image::{Image, Value, LENGTH_LIMIT, LIMITS};

/// Expressions, each the only child of the next.
pub fn expression_chain(height: usize) -> Image {
    let mut builder = Builder::new(1);
    let mut node = builder.node(0, "Null", &[]);
    for span in 1..height as u32 {
        node = builder.node(span, "Grouping", &[node.into()]);
    }
    builder.image
}

/// Statements, each the only child of the next: loops, branches, matches.
pub fn statement_chain(height: usize) -> Image {
    let mut builder = Builder::new(1);
    let subject = builder.node(0, "Null", &[]);
    let none = Value::Number(65_535);
    let mut inner = builder.statement(0, "Break", &[]);
    let mut made = 1;
    while made < height {
        let list = builder.list(&[inner]);
        let pair = match made % 3 {
            0 => Some(("MatchArm", "Match")),
            1 => Some(("ConditionalBranch", "Conditional")),
            _ => None,
        };
        match pair.filter(|_| made + 2 <= height) {
            Some(("MatchArm", _)) => {
                let arm = builder.statement(0, "MatchArm", &[none, list]);
                let arms = builder.list(&[arm]);
                inner = builder.statement(0, "Match", &[subject.into(), arms]);
                made += 2;
            }
            Some(_) => {
                let fields = [none, list, Value::Number(0)];
                let branch = builder.statement(0, "ConditionalBranch", &fields);
                inner = builder.statement(0, "Conditional", &[branch.into(), none]);
                made += 2;
            }
            None => {
                inner = builder.statement(0, "Loop", &[list]);
                made += 1;
            }
        }
    }
    builder.image
}

/// An image whose count at this position of the header is so large.
pub fn with_count(position: usize, count: usize) -> Image {
    let mut builder = Builder::new(2);
    let empty = Value::Range(0, 0);
    if position == 0 {
        builder.image.text = vec![b'x'; count];
        return builder.image;
    }
    if position > 4 {
        builder.text("n");
        builder.node(0, "Null", &[]);
    }
    for number in 0..count {
        let span = number as u32;
        match position {
            1 => builder.image.texts.push((0, 0)),
            2 => builder.image.entries.push(number as u16),
            3 => _ = builder.node(span, "Null", &[]),
            4 => _ = builder.statement(span, "Break", &[]),
            5 => _ = builder.parameter(0, None),
            6 => _ = builder.clause(0, None),
            7 => _ = builder.function(function(span, empty)),
            _ => _ = builder.call(0, span, empty),
        }
    }
    builder.image
}

fn function(span: u32, body: Value) -> Function {
    Function {
        name: 0,
        span,
        parameters: (0, 0),
        result: false,
        body,
        requires: (0, 0),
        ensures: (0, 0),
    }
}

/// An accepted image of 65,535 bytes: texts, list entries, parameters,
/// clauses, functions and calls at their limits, and long lists.
pub fn largest() -> Image {
    let mut builder = Builder::new(3);
    // Eight bytes a text; "é" takes two.
    for _ in 0..LIMITS[1] - 1 {
        builder.text("flow é.");
    }
    builder.image.entries = (0..LIMITS[2]).map(|entry| entry as u16 % 16).collect();
    for span in 0..16 {
        builder.integer(span, i64::from(span));
        builder.statement(span, "Break", &[]);
    }
    let list = |number: usize, count: u16| Value::Range(number as u16 * 37 % 3_800, count);
    for number in 0..LIMITS[5] {
        builder.parameter(number as u16, Some((2, Operand::Integer(1))));
        builder.clause(number as u16 % 16, Some(3));
        builder.call(number as u16, 9, list(number, 256));
    }
    for number in 0..LIMITS[7] {
        let whole = (0, LIMITS[5] as u16);
        builder.function(Function {
            parameters: whole,
            requires: whole,
            ensures: whole,
            ..function(8, list(number, 256))
        });
    }
    fill(&mut builder, list);
    builder.image
}

/// Adds expressions and statements, then raw text, up to the length limit.
fn fill(builder: &mut Builder, list: impl Fn(usize, u16) -> Value) {
    let mut room = LENGTH_LIMIT - encode(&builder.image).len() - 5;
    let mut number = 0;
    while room >= 9 + 9 + 11 {
        builder.node(6, "ArrayLiteral", &[list(number, 256)]);
        builder.node(6, "Call", &[list(number, 3), list(number, 8)]);
        room -= 9 + 13;
        if number % 3 == 0 && room >= 9 {
            builder.statement(7, "Loop", &[list(number, 64)]);
            room -= 9;
        }
        number += 1;
    }
    let last = "x".repeat(room);
    builder.text(&last);
}

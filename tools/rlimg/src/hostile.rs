//! Accepted images that ask for much work in folding and proving.

use crate::builder::{Builder, Function, Operand};
use crate::image::{Image, Value, EXPRESSION_HEIGHT, LIMITS};
use crate::schema::Section;

const PLUS: u16 = 1;
const COMPARE: u16 = 6;
const BANG_EQUAL: u16 = 7;
const LT: u16 = 3;
const EQ: u16 = 5;
const NE: u16 = 6;

/// As many parameters, arguments and clauses as there can be.
const MOST: usize = LIMITS[5];
/// How many of a worst call's parameters get a literal.
const BOUND: usize = 16;

fn float(builder: &mut Builder, value: f64) -> u16 {
    builder.node(0, "Float", &[Value::Number(value.to_bits())])
}

/// The function of all parameters and clauses, and calls of it.
fn called(builder: &mut Builder, name: u16, calls: &[Vec<u16>]) {
    let counts = builder.image.counts();
    let (parameters, requires) = ((0, counts[5] as u16), (0, counts[6] as u16));
    let (span, result, body, ensures) = (1, false, builder.list(&[]), (0, 0));
    builder.function(Function { name, span, parameters, result, body, requires, ensures });
    for arguments in calls {
        let arguments = builder.list(arguments);
        builder.call(name, 2, arguments);
    }
}

/// Adds the sum of a node with itself, of that with itself, and so on.
fn double(builder: &mut Builder, mut node: u16, times: usize) -> u16 {
    for _ in 0..times {
        node = builder.binary(0, node, PLUS, node);
    }
    node
}

/// Joins all by an operator, as flat as it can be.
pub(crate) fn joined(builder: &mut Builder, operator: u16, mut nodes: Vec<u16>) -> u16 {
    while nodes.len() > 1 {
        let mut above = Vec::new();
        for pair in nodes.chunks(2) {
            above.push(match *pair {
                [left, right] => builder.binary(0, left, operator, right),
                _ => pair[0],
            });
        }
        nodes = above;
    }
    nodes[0]
}

/// `f(x)` with `x < 0` requires that x doubled up to the height is 0. Call 0
/// is of 1.0, call 1 of the last node, which is 1.0 doubled up to the height;
/// both have two reports.
pub fn doubled(height: usize) -> Image {
    let mut builder = Builder::new(1).interning();
    let (one, zero) = (float(&mut builder, 1.0), float(&mut builder, 0.0));
    let x = builder.text("x");
    builder.parameter(x, Some((LT, Operand::Integer(0))));
    let x = builder.identifier(0, "x");
    let sum = double(&mut builder, x, height - 2);
    let condition = builder.binary(0, sum, COMPARE, zero);
    builder.clause(condition, None);
    let sum = double(&mut builder, one, height - 1);
    let name = builder.text("f");
    called(&mut builder, name, &[vec![one], vec![sum]]);
    builder.image
}

/// 4,031 nodes, the last a sum of the greatest height over all others; none
/// of them is shared.
pub fn deep_tree() -> Image {
    let mut builder = Builder::new(1);
    let part = |builder: &mut Builder| {
        let leaves = (0..32).map(|value| builder.integer(0, value)).collect();
        joined(builder, PLUS, leaves)
    };
    let mut node = part(&mut builder);
    for _ in 6..EXPRESSION_HEIGHT {
        let right = part(&mut builder);
        node = builder.binary(0, node, PLUS, right);
    }
    builder.image
}

/// A call of 256 arguments: literals for the first parameters, then the nodes
/// in turn. Each of 256 clauses requires that one of them differs from itself.
fn worst(builder: &mut Builder, names: &[u16], nodes: &[u16]) {
    let one = float(builder, 1.0);
    for name in names {
        builder.parameter(*name, Some((NE, Operand::Param(names[BOUND]))));
    }
    let nodes: Vec<u16> = nodes.iter().copied().cycle().take(MOST).collect();
    for node in &nodes {
        let condition = builder.binary(0, *node, BANG_EQUAL, *node);
        builder.clause(condition, None);
    }
    let arguments = [&[one; BOUND], &nodes[BOUND..]].concat();
    called(builder, names[0], &[arguments]);
}

/// A worst call over some 3,800 sums of shared nodes, the lowest of the first
/// parameters.
pub fn worst_call() -> Image {
    let mut builder = Builder::new(1).interning();
    let names: Vec<u16> = (0..MOST).map(|name| builder.text(&format!("p{name}"))).collect();
    let width = 57;
    let leaf = |leaf: usize| builder.identifier(0, &format!("p{}", leaf % BOUND));
    let mut layer: Vec<u16> = (0..width).map(leaf).collect();
    for _ in 1..EXPRESSION_HEIGHT - 1 {
        let sum = |at: usize| builder.binary(0, layer[at], PLUS, layer[(at + 1) % width]);
        layer = (0..width).map(sum).collect();
    }
    worst(&mut builder, &names, &layer);
    builder.image
}

/// So many texts, as long as can be, that differ in as many last bytes alone.
pub(crate) fn long(count: usize) -> Builder {
    let mut builder = Builder::new(1);
    let length = LIMITS[0] - count;
    builder.image.text = ["a".repeat(length), "b".repeat(count)].concat().into_bytes();
    builder.image.texts = (0..count).map(|text| (text as u16, length as u16)).collect();
    builder
}

/// A worst call over one sum of so many names, at most 1,024; the parameters'
/// names are long texts.
pub fn long_names(count: usize) -> Image {
    let mut builder = long(LIMITS[1]);
    let names: Vec<u16> = (0..MOST as u16).collect();
    let name = |leaf: usize| builder.node(0, "Identifier", &[names[leaf % BOUND].into()]);
    let leaves = (0..count).map(name).collect();
    let sum = joined(&mut builder, PLUS, leaves);
    worst(&mut builder, &names, &[sum]);
    builder.image
}

/// A worst call over so many comparisons of long texts, at most 1,024.
pub fn long_texts(count: usize) -> Image {
    let mut builder = long(LIMITS[1]);
    let mut string = |text: usize| builder.node(0, "String", &[(text as u16).into()]);
    let strings: Vec<u16> = (0..=count).map(&mut string).collect();
    let pairs = strings.windows(2);
    let leaves = pairs.map(|pair| builder.binary(0, pair[0], COMPARE, pair[1])).collect();
    let node = joined(&mut builder, COMPARE, leaves);
    let names: Vec<u16> = (0..MOST).map(|name| (LIMITS[1] - 1 - name) as u16).collect();
    worst(&mut builder, &names, &[node]);
    builder.image
}

/// As many calls as there can be, each with as many reports: every parameter
/// must be a long text and is empty, every clause is false and has a long
/// message. All of them differ, and some 3 GB of lines are printed.
pub fn longest_output() -> Image {
    let mut builder = long(MOST);
    let (empty, never) = (builder.string(0, ""), builder.node(0, "Bool", &[0.into()]));
    for name in 0..MOST as u16 {
        let other = Operand::Str(MOST as u16 - 1 - name);
        builder.parameter(name, Some((EQ, other)));
        let message = builder.node(0, "String", &[name.into()]);
        builder.clause(never, Some(message));
    }
    called(&mut builder, 0, &[vec![empty; MOST]]);
    let first = builder.image.of(Section::Call)[0].range(2);
    for span in 1..LIMITS[8] as u32 {
        builder.call(0, span << 24, Value::Range(first.0, first.1));
    }
    builder.image
}

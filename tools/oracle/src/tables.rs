//! Small images that go through operators, sorts of values and kinds of
//! expressions in order.

use crate::rule::{BANG, BANG_EQUAL, COMPARE, MINUS};
use crate::rule::{binary, call, clause, compare, function, parameters, unary};
use rlimg::builder::Builder;
use rlimg::image::{Image, Value};
use rlimg::rng::Rng;
use rlimg::rules::Literal::{self, Float, Int};
use rlimg::rules::{EDGES, NANS, SORTS, literals};
use rlimg::schema::{self, Row, Section, Sort};
use rlimg::small;

/// Binary operators: those that compute, those that compare, and some others.
pub(crate) const OPERATORS: [u16; 13] = [1, 2, 3, 4, 6, 7, 8, 9, 10, 11, BANG, 12, 63];
const TEXTS: [usize; 2] = [2, 2];

pub fn images() -> Vec<Image> {
    let mut rng = Rng::new(2);
    let mut images = Vec::new();
    for operator in OPERATORS {
        images.extend(of_operator(&mut rng, operator));
    }
    images.extend([1, MINUS, BANG, COMPARE, 12, 63].map(of_unary_operator));
    images.extend(schema::rows(Section::Expression).map(of_kind));
    images.extend([edges(), hidden(), small_constants()]);
    images
}

pub(crate) fn compares(operator: u16) -> bool {
    (COMPARE..12).contains(&operator)
}

/// Whether the operator has values on such sorts (whole, float, text, truth).
fn takes(operator: u16, [left, right]: [usize; 2]) -> bool {
    let numbers = left < 2 && right < 2;
    numbers && operator < BANG || compares(operator) && (numbers || left == right)
}

/// An image for each pair of sorts that the operator takes, and one for all
/// other pairs.
fn of_operator(rng: &mut Rng, operator: u16) -> Vec<Image> {
    let pairs = (0..SORTS).flat_map(|left| (0..SORTS).map(move |right| [left, right]));
    let (taken, others): (Vec<_>, Vec<_>) = pairs.partition(|pair| takes(operator, *pair));
    let mut calls: Vec<Vec<[Literal; 2]>> = Vec::new();
    for pair in taken {
        calls.push(match pair {
            TEXTS => neighbours(&literals(2)),
            _ => (0..12).map(|_| operands(rng, operator, pair)).collect(),
        });
    }
    calls.push(others.into_iter().map(|pair| operands(rng, operator, pair)).collect());
    calls.iter().map(|calls| of_operands(rng, operator, calls)).collect()
}

/// Each literal with the next, and some with themselves.
fn neighbours(literals: &[Literal]) -> Vec<[Literal; 2]> {
    let next = literals.iter().cycle().skip(1);
    let mut pairs: Vec<[Literal; 2]> =
        literals.iter().zip(next).map(|(left, right)| [*left, *right]).collect();
    pairs.extend(literals.iter().step_by(4).map(|literal| [*literal; 2]));
    pairs
}

/// Operands of the sorts, those to be compared mostly near each other.
fn operands(rng: &mut Rng, operator: u16, sorts: [usize; 2]) -> [Literal; 2] {
    let [left, right] = sorts.map(|sort| Literal::any(rng, sort));
    if !compares(operator) || rng.one_in(3) {
        return [left, right];
    }
    let near = match (left, sorts[1]) {
        (Int(value), 1) => Float(value as f64).nudged(rng),
        (Float(value), 0) => Int(value as i64),
        _ if sorts[0] == sorts[1] => left.nudged(rng),
        _ => right,
    };
    [left, near]
}

/// `f(a, b, c)` requires `a operator b`, or that it is c, and the same negated.
fn of_operands(rng: &mut Rng, operator: u16, calls: &[[Literal; 2]]) -> Image {
    let mut builder = Builder::new(u32::from(operator)).interning();
    let [a, b, c] = parameters(&mut builder, ["a", "b", "c"]);
    let inner = builder.binary(2, a, operator, b);
    if compares(operator) {
        clause(&mut builder, inner, "false");
        let negated = unary(&mut builder, BANG, inner);
        clause(&mut builder, negated, "true");
    } else {
        compare(&mut builder, [inner, COMPARE, c], "unequal");
        compare(&mut builder, [inner, BANG_EQUAL, c], "equal");
    }
    let name = function(&mut builder);
    for [left, right] in calls {
        let near = left.result(operator, *right).nudged(rng);
        let arguments = [*left, *right, near].map(|literal| literal.node(&mut builder, 5));
        call(&mut builder, name, &arguments);
    }
    builder.image
}

/// `f(a)` requires that `operator a` differs from itself, and `operator a`.
fn of_unary_operator(operator: u16) -> Image {
    let mut builder = Builder::new(u32::from(operator)).interning();
    let [a] = parameters(&mut builder, ["a"]);
    let inner = unary(&mut builder, operator, a);
    compare(&mut builder, [inner, BANG_EQUAL, inner], "some");
    clause(&mut builder, inner, "false");
    let name = function(&mut builder);
    for literal in (0..SORTS).flat_map(literals).step_by(3) {
        let argument = literal.node(&mut builder, 5);
        call(&mut builder, name, &[argument]);
    }
    builder.image
}

/// `f(a)` requires that an expression of the kind, over a and 7, differs from
/// itself, and that it is 0.
fn of_kind(row: &Row) -> Image {
    let mut builder = Builder::new(u32::from(row.kind)).interning();
    let (a, seven) = (builder.text("a"), builder.integer(1, 7));
    parameters(&mut builder, ["a"]);
    let node = node_of(&mut builder, row, a, seven);
    let zero = builder.integer(2, 0);
    compare(&mut builder, [node, BANG_EQUAL, node], "some");
    compare(&mut builder, [node, COMPARE, zero], "not 0");
    let name = function(&mut builder);
    call(&mut builder, name, &[seven]);
    call(&mut builder, name, &[]);
    builder.image
}

/// A node of the kind, over a text and a node.
pub(crate) fn node_of(builder: &mut Builder, row: &Row, text: u16, node: u16) -> u16 {
    let sorts = row.sorts.iter().skip(1);
    let values: Vec<Value> = sorts.map(|sort| field(builder, *sort, text, node)).collect();
    builder.node(2, row.name, &values)
}

fn field(builder: &mut Builder, sort: Sort, text: u16, node: u16) -> Value {
    match sort {
        Sort::Text => text.into(),
        Sort::Node => node.into(),
        Sort::Nodes => builder.list(&[node]),
        Sort::NodePairs => builder.list(&[node, node]),
        Sort::Texts => builder.list(&[text]),
        Sort::Fields => builder.list(&[text, node]),
        Sort::Operator => MINUS.into(),
        _ => 1.into(),
    }
}

/// `f()` requires that each of some results is what it may be taken for, and
/// the same negated.
fn edges() -> Image {
    let mut builder = Builder::new(1).interning();
    for (number, (left, operator, right)) in EDGES.into_iter().chain(NANS).enumerate() {
        let node = binary(&mut builder, left, operator, right);
        let value = left.result(operator, right).node(&mut builder, 2);
        compare(&mut builder, [node, COMPARE, value], &format!("unequal {number}"));
        compare(&mut builder, [node, BANG_EQUAL, value], &format!("equal {number}"));
    }
    let name = function(&mut builder);
    call(&mut builder, name, &[]);
    builder.image
}

/// `f(a, b)` requires `a != b` and `a == b`, called with each small constant
/// and the Integer of its value.
fn small_constants() -> Image {
    let mut builder = Builder::new(1).interning();
    let [a, b] = parameters(&mut builder, ["a", "b"]);
    compare(&mut builder, [a, BANG_EQUAL, b], "equal");
    compare(&mut builder, [a, COMPARE, b], "unequal");
    let name = function(&mut builder);
    for constant in small::all() {
        let value = builder.integer(5, constant.1);
        let constant = small::node(&mut builder, 5, constant);
        call(&mut builder, name, &[constant, value]);
    }
    builder.image
}

/// `f(a, a)` requires `a == 2` and `a != 5`: in f(1, x) the 1 counts where x
/// has no value; a NaN is a value, and so is a small constant.
fn hidden() -> Image {
    let mut builder = Builder::new(1).interning();
    let [a, _] = parameters(&mut builder, ["a", "a"]);
    let [one, two, five] = [1, 2, 5].map(|number| builder.integer(2, number));
    compare(&mut builder, [a, COMPARE, two], "a is not 2");
    compare(&mut builder, [a, BANG_EQUAL, five], "a is 5");
    let name = function(&mut builder);
    let nan = Float(f64::NAN).node(&mut builder, 2);
    let mut arguments = vec![one, two, nan, unary(&mut builder, MINUS, nan)];
    arguments.push(builder.node(2, "SFloat", &[Value::Number(0x7f80_0001)]));
    arguments.push(builder.node(2, "Grouping", &[nan.into()]));
    let small = small::holding(2).into_iter().chain(small::holding(5));
    arguments.extend(small.map(|constant| small::node(&mut builder, 2, constant)));
    for (left, operator, right) in EDGES.into_iter().chain(NANS) {
        arguments.push(binary(&mut builder, left, operator, right));
    }
    for argument in arguments {
        call(&mut builder, name, &[one, argument]);
    }
    builder.image
}

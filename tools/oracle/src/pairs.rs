//! Every operator on every pair of the literals at the edges, and the literals
//! of other kinds. What is to be folded stands at the start.

use crate::rule::{BANG, BANG_EQUAL, COMPARE, MINUS};
use crate::rule::{call, clause, compare, function, unary};
use crate::tables::{OPERATORS, compares};
use rlimg::builder::Builder;
use rlimg::image::{Image, Value};
use rlimg::rules::Literal::{self, Bool, Float, Int, Str};
use rlimg::rules::{SORTS, literals};
use rlimg::small::{self, Small};

const LESS: u16 = 8;
const PLUS: u16 = 1;

/// Bits of literals that are not of their sort's own kind.
const BITS: [(&str, &[u64]); 4] = [
    ("SInt", &[0, 1, 0x7fff_ffff, 0x8000_0000, 0xffff_ffff]),
    ("UInt", &[0, 1, 1 << 53, (1 << 63) - 1, 1 << 63, u64::MAX]),
    ("SFloat", &[0, 1, 0x7f_ffff, 0x80_0000, 0x3dcc_cccd, 0x7f7f_ffff, 0x7f80_0000]),
    ("SFloat", &[0x8000_0000, 0x8000_0001, 0xff80_0000, 0x7f80_0001, 0x7fc0_0000, 0xffff_ffff]),
];

/// One after the other; they are some 1,900.
pub fn images() -> impl Iterator<Item = Image> {
    let all: Vec<Literal> = (0..SORTS).flat_map(literals).collect();
    let lefts = all.clone();
    let pairs = lefts.into_iter().flat_map(|left| OPERATORS.map(|operator| (left, operator)));
    let pairs = pairs.map(move |(left, operator)| of_left(left, operator, &all));
    let small = small::all().into_iter();
    let small = small.flat_map(|small| OPERATORS.map(|operator| of_small(small, operator)));
    let unary = [MINUS, BANG].into_iter().flat_map(|operator| {
        [edges, small_constants].map(|literals| of_literals(operator, literals))
    });
    pairs.chain(small).chain((1..64).map(of_sorts)).chain(unary).chain([of_bits()])
}

/// `f()` requires `left operator right` for each right, or that it is what it
/// may be taken for, and the same negated.
fn of_left(left: Literal, operator: u16, rights: &[Literal]) -> Image {
    let mut builder = Builder::new(u32::from(operator)).interning();
    let first = left.node(&mut builder, 1);
    let mut operator_on = |right: &Literal| {
        let second = right.node(&mut builder, 1);
        (builder.binary(2, first, operator, second), left.result(operator, *right))
    };
    let results: Vec<(u16, Literal)> = rights.iter().map(&mut operator_on).collect();
    asking(builder, operator, &results)
}

/// The same for a small constant left of each literal beside it, and right.
fn of_small(small: Small, operator: u16) -> Image {
    let mut builder = Builder::new(u32::from(operator)).interning();
    let constant = (small::node(&mut builder, 1, small), Int(small.1));
    let mut results = Vec::new();
    for other in beside(&mut builder, small.1) {
        for [left, right] in [[constant, other], [other, constant]] {
            let node = builder.binary(2, left.0, operator, right.0);
            results.push((node, left.1.result(operator, right.1)));
        }
    }
    asking(builder, operator, &results)
}

/// Literals of every sort, and whole numbers of every kind, with what they may
/// be taken for.
fn beside(builder: &mut Builder, value: i64) -> Vec<(u16, Literal)> {
    let bits = Value::Number(value as u64);
    let signed = Value::Number(u64::from(value as u32));
    let mut all = vec![
        (builder.node(1, "Null", &[]), Int(0)),
        (builder.node(1, "UInt", &[bits]), Int(value)),
        (builder.node(1, "SInt", &[signed]), Int(i64::from(value as i32))),
    ];
    let literals = [
        Int(value),
        Int(value + 1),
        Float(value as f64),
        Float(0.5),
        Float(f64::NAN),
        Str("5"),
        Bool(true),
    ];
    all.extend(literals.map(|literal| (literal.node(builder, 1), literal)));
    for small in small::holding(value).into_iter().chain(small::holding(1)) {
        all.push((small::node(builder, 1, small), Int(small.1)));
    }
    all
}

/// `f()` requires each result of the operator, or that it is what it may be
/// taken for, and the same negated.
fn asking(mut builder: Builder, operator: u16, results: &[(u16, Literal)]) -> Image {
    for (number, (node, value)) in results.iter().enumerate() {
        let [yes, no] = ["is", "is not"].map(|word| format!("{number} {word}"));
        if compares(operator) {
            clause(&mut builder, *node, &no);
            let negated = unary(&mut builder, BANG, *node);
            clause(&mut builder, negated, &yes);
        } else {
            let value = value.node(&mut builder, 2);
            compare(&mut builder, [*node, COMPARE, value], &no);
            compare(&mut builder, [*node, BANG_EQUAL, value], &yes);
        }
    }
    called(builder)
}

/// `f` of all clauses is called once.
fn called(mut builder: Builder) -> Image {
    let name = function(&mut builder);
    call(&mut builder, name, &[]);
    builder.image
}

/// `f()` requires that `left operator right` and `operator right` differ from
/// themselves, for a value of each sort and each small constant left and right.
fn of_sorts(operator: u16) -> Image {
    let mut builder = Builder::new(u32::from(operator)).interning();
    let literals = [Int(5), Float(2.5), Float(f64::NAN), Str("five"), Bool(true)];
    let mut literals = literals.map(|literal| literal.node(&mut builder, 1)).to_vec();
    literals.extend(small::holding(5).into_iter().map(|small| small::node(&mut builder, 1, small)));
    literals.push(builder.node(1, "Null", &[]));
    for right in &literals {
        let node = unary(&mut builder, operator, *right);
        compare(&mut builder, [node, BANG_EQUAL, node], &format!("{right}"));
        for left in &literals {
            let node = builder.binary(2, *left, operator, *right);
            compare(&mut builder, [node, BANG_EQUAL, node], &format!("{left} {right}"));
        }
    }
    called(builder)
}

fn edges(builder: &mut Builder) -> Vec<u16> {
    (0..SORTS).flat_map(literals).map(|literal| literal.node(builder, 1)).collect()
}

fn small_constants(builder: &mut Builder) -> Vec<u16> {
    small::all().into_iter().map(|small| small::node(builder, 1, small)).collect()
}

/// `f()` requires that `operator literal`, and its own, differ from themselves.
fn of_literals(operator: u16, literals: fn(&mut Builder) -> Vec<u16>) -> Image {
    let mut builder = Builder::new(u32::from(operator)).interning();
    let mut nodes = Vec::new();
    for literal in literals(&mut builder) {
        let node = unary(&mut builder, operator, literal);
        nodes.extend([node, unary(&mut builder, operator, node)]);
    }
    required(builder, &nodes, BANG_EQUAL)
}

/// `f()` requires that each literal is less than itself; they are also added
/// to themselves.
fn of_bits() -> Image {
    let mut builder = Builder::new(1).interning();
    let bits = BITS.iter().flat_map(|(kind, all)| all.iter().map(move |bits| (kind, bits)));
    let mut nodes = Vec::new();
    for (kind, bits) in bits {
        let literal = builder.node(1, kind, &[Value::Number(*bits)]);
        nodes.extend([literal, builder.binary(1, literal, PLUS, literal)]);
    }
    required(builder, &nodes, LESS)
}

/// `f()` requires that each node compares so with itself.
fn required(mut builder: Builder, nodes: &[u16], operator: u16) -> Image {
    for node in nodes {
        compare(&mut builder, [*node, operator, *node], &format!("{node}"));
    }
    called(builder)
}

//! Listed functions to be run: each small constant at each of its limits on
//! both sides of the operators, beside each sort of value and each kind of
//! whole number, and in each other place of a body.

use crate::builder::Builder;
use crate::code::Code;
use crate::image::{Image, Value};
use crate::small::{self, Small, KINDS};

/// Those that mean something in an expression, and two of those that do not.
const OPERATORS: [u16; 13] = [1, 2, 3, 4, 5, 6, 7, 8, 9, 10, 11, 12, 63];
/// An image has room for the functions of so many operators.
const TOGETHER: usize = 2;

/// Images of functions without parameters.
pub fn images() -> Vec<Image> {
    small::all().into_iter().flat_map(of_small).collect()
}

fn of_small(small: Small) -> Vec<Image> {
    let pairs = OPERATORS.chunks(TOGETHER).map(|operators| beside(small, operators));
    pairs.chain([alone(small)]).collect()
}

fn code() -> Code {
    Code::new(Builder::new(1).interning())
}

/// A function for each operator, each value beside the constant and each side.
fn beside(small: Small, operators: &[u16]) -> Image {
    let mut code = code();
    let constant = code.small(small);
    for other in others(&mut code, small.1) {
        for operator in operators {
            for [left, right] in [[constant, other], [other, constant]] {
                let node = code.binary(left, *operator, right);
                let given = code.give(node);
                code.function(&[], &[given]);
            }
        }
    }
    code.builder.image
}

/// What stands beside a constant of this value: values of each sort, and whole
/// numbers of each kind. A small constant has the same value where it can.
fn others(code: &mut Code, value: i64) -> Vec<u16> {
    let two = code.integer(2);
    let mut all = vec![
        two,
        code.null(),
        code.integer(value),
        code.node("SInt", &[Value::Number(u64::from(-2_i32 as u32))]),
        code.node("UInt", &[Value::Number(2)]),
        code.string("2"),
        code.bool(true),
        code.float(2.5),
        code.float(value as f64),
        code.float(f64::NAN),
        code.over("OkLiteral", two),
    ];
    for (kind, range) in &KINDS {
        let held = if range.contains(&value) { value } else { 2 };
        all.push(code.small((*kind, held)));
    }
    all
}

/// A function for each place in which the constant stands alone.
fn alone(small: Small) -> Image {
    let mut code = code();
    let constant = code.small(small);
    let mut given: Vec<u16> =
        OPERATORS.iter().map(|operator| code.unary(*operator, constant)).collect();
    given.push(constant);
    let mut inside = vec![constant];
    inside.extend(["OkLiteral", "ErrLiteral"].map(|kind| code.over(kind, constant)));
    given.extend(&inside[1..]);
    for inner in inside {
        given.extend(["is_err", "result_unwrap"].map(|name| code.result(name, inner)));
    }
    for node in given {
        let given = code.give(node);
        code.function(&[], &[given]);
    }
    for body in bodies(&mut code, constant) {
        code.function(&[], &body);
    }
    code.builder.image
}

/// The constant as last expression, grouped too, as a condition, declared and
/// assigned.
fn bodies(code: &mut Code, constant: u16) -> Vec<Vec<u16>> {
    let grouping = code.over("Grouping", constant);
    let bare = [constant, grouping].map(|node| vec![code.bare(node)]);
    let (null, name, out) = (code.null(), code.name("a"), code.statement("Break", &[]));
    let [given, declared, empty] =
        [code.give(name), code.declare("a", constant), code.declare("a", null)];
    let (set, assigned) = (code.set("a", constant), code.assign("a", constant));
    let assigned = code.give(assigned);
    let mut bodies = vec![
        vec![code.when(constant, &[])],
        vec![code.while_loop(constant, &[out])],
        vec![declared, given],
        vec![empty, set, given],
        vec![empty, assigned],
    ];
    bodies.extend(bare);
    bodies
}

//! Parts of small images: a function and calls of it.

use rlimg::builder::{Builder, Function};
use rlimg::rules::Literal;

pub const MINUS: u16 = 2;
pub const BANG: u16 = 5;
pub const COMPARE: u16 = 6;
pub const BANG_EQUAL: u16 = 7;

/// Parameters without refinements; gives identifiers of them.
pub fn parameters<const N: usize>(builder: &mut Builder, names: [&str; N]) -> [u16; N] {
    names.map(|name| {
        let text = builder.text(name);
        builder.parameter(text, None);
        builder.identifier(1, name)
    })
}

pub fn binary(builder: &mut Builder, left: Literal, operator: u16, right: Literal) -> u16 {
    let (left, right) = (left.node(builder, 2), right.node(builder, 2));
    builder.binary(2, left, operator, right)
}

pub fn unary(builder: &mut Builder, operator: u16, operand: u16) -> u16 {
    builder.node(2, "Unary", &[operator.into(), operand.into()])
}

/// Requires the condition.
pub fn clause(builder: &mut Builder, condition: u16, message: &str) {
    let message = builder.string(3, message);
    builder.clause(condition, Some(message));
}

/// Requires a comparison.
pub fn compare(builder: &mut Builder, [left, operator, right]: [u16; 3], message: &str) {
    let condition = builder.binary(2, left, operator, right);
    clause(builder, condition, message);
}

/// The function `f` of all parameters and clauses; gives its name.
pub fn function(builder: &mut Builder) -> u16 {
    let counts = builder.image.counts();
    let (parameters, requires) = ((0, counts[5] as u16), (0, counts[6] as u16));
    function_of(builder, "f", parameters, requires)
}

/// A function with these parameters and requires; gives its name.
pub fn function_of(
    builder: &mut Builder,
    name: &str,
    parameters: (u16, u16),
    requires: (u16, u16),
) -> u16 {
    let (name, body) = (builder.text(name), builder.list(&[]));
    let (span, result, ensures) = (4, false, (0, 0));
    builder.function(Function { name, span, parameters, result, body, requires, ensures });
    name
}

/// A call, whose span is 10 more than its number.
pub fn call(builder: &mut Builder, name: u16, arguments: &[u16]) {
    let arguments = builder.list(arguments);
    let span = 10 + builder.image.counts()[8] as u32;
    builder.call(name, span, arguments);
}

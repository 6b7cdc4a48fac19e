//! Images for what is easily got wrong around the operators: which function is
//! called, which argument counts, how names and texts are told apart.

mod names;

use crate::rule::{BANG_EQUAL, call, clause, compare, function, function_of};
use crate::tables::node_of;
use rlimg::builder::{Builder, Function, Operand};
use rlimg::edges;
use rlimg::image::{Image, LIMITS};
use rlimg::rules::Literal::Bool;
use rlimg::rules::{SORTS, literals};
use rlimg::runs::texts;
use rlimg::schema::{self, Section};
use rlimg::small;

const GT: u16 = 1;

pub fn images() -> Vec<Image> {
    let mut images = vec![counts(), messages(), every_report(3)];
    images.extend((0..64).map(callees));
    images.extend((1..7).flat_map(|refinement| {
        [operands(refinement), limits(refinement), listed_texts(refinement)]
    }));
    images.extend(names::images());
    images.extend(empty());
    images
}

/// Three functions `f`, each by two bits of the number: without contracts, with
/// a requires, with a refinement, with an ensures alone.
fn callees(number: usize) -> Image {
    let mut builder = Builder::new(1);
    let never = Bool(false).node(&mut builder, 1);
    let ten = builder.integer(1, 10);
    for function in 0..3 {
        let parameter = builder.text(&format!("p{function}"));
        let least = Operand::Integer(10 + function);
        builder.parameter(parameter, None);
        builder.parameter(parameter, Some((GT, least)));
        clause(&mut builder, never, &format!("r{function}"));
    }
    for function in 0..3 {
        let form = number >> (2 * function) & 3;
        let (at, refined) = (function as u16, u16::from(form == 2));
        let name = builder.text("f");
        let (span, result, body) = (4, false, builder.list(&[]));
        let parameters = (2 * at + refined, 1);
        let [requires, ensures] = [1, 3].map(|clauses| (at, u16::from(form == clauses)));
        builder.function(Function { name, span, parameters, result, body, requires, ensures });
    }
    let other = function_of(&mut builder, "ff", (0, 1), (0, 1));
    let (same, prefix) = (builder.text("f"), builder.text(""));
    for name in [same, other, prefix] {
        call(&mut builder, name, &[ten]);
        call(&mut builder, name, &[]);
    }
    builder.image
}

/// Functions of 0 to 4 parameters, called with 0 to 5 arguments.
fn counts() -> Image {
    let mut builder = Builder::new(1).interning();
    let five = builder.integer(1, 5);
    for name in ["a", "b", "c", "d"] {
        let text = builder.text(name);
        builder.parameter(text, Some((GT, Operand::Integer(9))));
        let node = builder.identifier(1, name);
        compare(&mut builder, [node, BANG_EQUAL, five], name);
    }
    for parameters in 0..5 {
        let name = function_of(&mut builder, &format!("f{parameters}"), (0, parameters), (0, 4));
        for arguments in 0..6 {
            call(&mut builder, name, &vec![five; arguments]);
        }
    }
    builder.image
}

/// A refinement with operands of each sort; called with each literal.
fn operands(refinement: u16) -> Image {
    let mut builder = Builder::new(1).interning();
    let names = ["a", "b", "c", "d", "e", "f", "g", "h", "i", "j", "k", "l"];
    let names = names.map(|name| builder.text(name));
    let [empty, abc, last] = ["", "abc", "\u{ffff}"].map(|text| Operand::Str(builder.text(text)));
    let [first, own, unknown] = [names[0], names[10], builder.text("m")].map(Operand::Param);
    let integers = [0, i64::MIN, i64::MAX, (1 << 53) + 1].map(Operand::Integer);
    let others = [empty, abc, last, Operand::Bool(false), Operand::Bool(true), first, own, unknown];
    for (name, operand) in names.into_iter().zip(integers.into_iter().chain(others)) {
        builder.parameter(name, Some((refinement, operand)));
    }
    let name = function(&mut builder);
    for literal in (0..SORTS).flat_map(literals) {
        let argument = literal.node(&mut builder, 5);
        call(&mut builder, name, &[argument; 12]);
    }
    builder.image
}

/// A refinement with the limits of small constants as operands; called with
/// each small constant.
fn limits(refinement: u16) -> Image {
    let mut builder = Builder::new(1).interning();
    for (number, limit) in small::LIMITS.into_iter().enumerate() {
        let name = builder.text(&format!("p{number}"));
        builder.parameter(name, Some((refinement, Operand::Integer(limit))));
    }
    let name = function(&mut builder);
    for constant in small::all() {
        let argument = small::node(&mut builder, 5, constant);
        call(&mut builder, name, &[argument; small::LIMITS.len()]);
    }
    builder.image
}

/// A refinement with each listed text as operand; called with each.
fn listed_texts(refinement: u16) -> Image {
    let mut builder = Builder::new(1);
    let listed = texts::listed();
    for (number, text) in listed.iter().enumerate() {
        let (name, text) = (builder.text(&format!("p{number}")), builder.text(text));
        builder.parameter(name, Some((refinement, Operand::Str(text))));
    }
    let name = function(&mut builder);
    for text in &listed {
        let argument = builder.string(5, text);
        call(&mut builder, name, &vec![argument; listed.len()]);
    }
    builder.image
}

/// A false condition with a message of each kind of expression.
fn messages() -> Image {
    let mut builder = Builder::new(1).interning();
    let (text, seven) = (builder.text("say"), builder.integer(1, 7));
    let never = Bool(false).node(&mut builder, 1);
    builder.clause(never, None);
    for row in schema::rows(Section::Expression) {
        let message = node_of(&mut builder, row, text, seven);
        builder.clause(never, Some(message));
    }
    let name = function(&mut builder);
    call(&mut builder, name, &[]);
    builder.image
}

/// Calls of which each has as many reports as a call can have: argument i is
/// i, its parameter wants more, a clause wants another.
fn every_report(calls: usize) -> Image {
    let mut builder = Builder::new(1).interning();
    let mut arguments = Vec::new();
    for number in 0..LIMITS[5] {
        let name = format!("p{number}");
        let (text, value) = (builder.text(&name), number as i64);
        builder.parameter(text, Some((GT, Operand::Integer(value))));
        let (node, value) = (builder.identifier(1, &name), builder.integer(1, value));
        let other = builder.binary(1, node, BANG_EQUAL, value);
        builder.clause(other, (number % 2 == 0).then_some(value));
        arguments.push(value);
    }
    let name = function(&mut builder);
    for _ in 0..calls {
        call(&mut builder, name, &arguments);
    }
    builder.image
}

/// Nothing at all, empty lists and names, and sections full of the least.
fn empty() -> Vec<Image> {
    let mut builder = Builder::new(0).interning();
    let name = function_of(&mut builder, "", (0, 0), (0, 0));
    call(&mut builder, name, &[]);
    let mut images = vec![Image::default(), builder.image];
    for (position, limit) in LIMITS.into_iter().enumerate() {
        images.extend([1, 2, limit].map(|count| edges::with_count(position, count)));
    }
    images.push(edges::largest());
    images
}

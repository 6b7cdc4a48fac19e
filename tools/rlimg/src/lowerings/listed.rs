//! A function for each kind of expression in a condition, and for each kind of
//! statement around a return.

use super::with_clauses;
use crate::builder::{Builder, Operand};
use crate::code::{self, Code};
use crate::image::{Image, Value, NONE};
use crate::random::image_with;
use crate::rng::Rng;
use crate::schema::{self, Section};

/// How many kinds of bodies there are.
const BODIES: usize = 16;

/// All images below.
pub fn all() -> Vec<Image> {
    [conditions(), bodies(), contracts(), small_constants()].concat()
}

/// A function that requires an expression of each kind; every other one has it
/// as the message too.
pub fn conditions() -> Vec<Image> {
    let mut rng = Rng::new(2);
    let mut all = Vec::new();
    for row in schema::rows(Section::Expression) {
        let mut builder = Builder::default();
        builder.image = image_with(&mut rng, row);
        let (last, name) = (builder.image.counts()[3] as u16 - 1, builder.text("f"));
        let mut code = Code::new(builder);
        code.function_of(name, (0, 0), &[]);
        let message = (row.kind % 2 == 0).then_some(last);
        all.push(with_clauses(code.builder.image, 0, &[(last, message)], &[]));
    }
    all
}

/// A function with an ensures for each kind of body, plain and of a result.
pub fn bodies() -> Vec<Image> {
    let mut all = Vec::new();
    for (which, result) in (0..BODIES).flat_map(|which| [(which, 0), (which, 1)]) {
        let image = code::image(&["x"], |code| {
            let holds = code.name("ret");
            let value = code.name("x");
            let body = body(code, which, value);
            _ = code.unary(5, holds);
            body
        });
        let condition = image.of(Section::Expression).len() as u16 - 1;
        let mut image = with_clauses(image, 0, &[], &[(condition, None)]);
        image.of_mut(Section::Function)[0].values[3] = result.into();
        all.push(image);
    }
    all
}

fn body(code: &mut Code, which: usize, value: u16) -> Vec<u16> {
    let (give, alone) = (code.give(value), code.statement("ReturnAlone", &[]));
    let jump = code.statement("Continue", &[]);
    let list = code.builder.list(&[jump, give]);
    let text = Value::Number(0);
    match which {
        0 => vec![],
        1 => vec![give],
        2 => vec![alone],
        3 => vec![code.bare(value)],
        4 => vec![code.when(value, &[alone]), code.bare(value)],
        5 => vec![give, give, alone],
        6 => {
            let scope = [value.into(), list, 1.into()];
            let branch = code.statement("ConditionalBranch", &scope);
            let other = code.branch(None, &[alone]);
            vec![branch, code.conditional(branch, Some(other))]
        }
        7 => {
            let (branch, last) = (code.branch(Some(value), &[give]), code.branch(None, &[alone]));
            let other = code.conditional(branch, Some(last));
            vec![code.conditional(branch, Some(other)), code.conditional(branch, None)]
        }
        8 => vec![code.while_loop(value, &[jump, give])],
        9 => vec![code.endless(&[give, jump]), code.endless(&[])],
        10 => vec![code.statement("For", &[give.into(), value.into(), value.into(), list])],
        11 => vec![code.statement("ForRange", &[text, alone.into(), list])],
        12 => vec![code.statement("ForEach", &[text, value.into(), list])],
        13 => {
            let first = code.statement("MatchArm", &[value.into(), list]);
            let last = code.statement("MatchArm", &[NONE.into(), list]);
            let arms = code.builder.list(&[first, last, first]);
            vec![code.statement("Match", &[value.into(), arms])]
        }
        14 => {
            let names = ["Break", "Continue"].map(|name| code.statement(name, &[]));
            let declared = [text, 9.into(), value.into(), 8.into()];
            let declared = code.statement("VariableDeclaration", &declared);
            vec![declared, names[0], code.statement("Other", &[7.into()]), names[1]]
        }
        _ => {
            let inner = code.when(value, &[give, alone]);
            let inner = code.endless(&[inner, inner]);
            let inner = code.while_loop(value, &[inner, give]);
            vec![inner, code.when(value, &[inner])]
        }
    }
}

/// A function, plain and of a result, whose conditions, messages and value are
/// small constants: they are copied and passed on as they are.
pub fn small_constants() -> Vec<Image> {
    let image = code::image(&[], |code| {
        let first = [("Byte", 5), ("SByte", -1), ("BSByte", -32_768), ("SUInt", 4_294_967_295)];
        first.into_iter().for_each(|small| _ = code.small(small));
        let value = code.small(("BByte", 65_535));
        vec![code.give(value)]
    });
    let image = with_clauses(image, 0, &[(0, Some(1))], &[(2, Some(3))]);
    let of_result = |result: u16| {
        let mut image = image.clone();
        image.of_mut(Section::Function)[0].values[3] = result.into();
        image
    };
    [0, 1].map(of_result).to_vec()
}

/// Functions with refinements of every sort, clauses that share messages, and
/// functions of which only one has a contract.
pub fn contracts() -> Vec<Image> {
    let mut all = Vec::new();
    for result in [0, 1] {
        let mut code = Code::new(Builder::new(9).interning());
        let [name, other] = ["rate", "caf\u{e9}"].map(|name| code.builder.text(name));
        let operands = [
            Operand::Integer(i64::MIN),
            Operand::Integer(0),
            Operand::Str(other),
            Operand::Bool(true),
            Operand::Bool(false),
            Operand::Param(other),
        ];
        for (refinement, operand) in (1..).zip(operands) {
            code.builder.parameter(name, Some((refinement, operand)));
        }
        code.builder.parameter(other, None);
        let condition = code.name("rate");
        let message = code.string("the rate is too low");
        let value = code.integer(7);
        let give = code.give(value);
        code.function_of(name, (6, 1), &[give]);
        code.function_of(name, (0, 7), &[give]);
        code.function_of(other, (3, 4), &[give]);
        let clauses = [(condition, Some(message)), (condition, None), (value, Some(value))];
        let mut image = with_clauses(code.builder.image, 1, &clauses, &clauses[..2]);
        image.of_mut(Section::Function)[1].values[3] = result.into();
        all.push(image);
    }
    all
}

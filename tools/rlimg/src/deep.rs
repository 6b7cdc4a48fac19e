//! Functions at the limits of a run: nested as deep as can be, and with as many
//! names as can be bound, which differ late.

use crate::builder::{Builder, Function};
use crate::code::{self, Code};
use crate::hostile::{joined, long};
use crate::image::{Image, EXPRESSION_HEIGHT, STATEMENT_HEIGHT};
use crate::run::BINDINGS;

const PLUS: u16 = 1;
const BANG: u16 = 5;
const COMPARE: u16 = 6;
const LESS: u16 = 8;

/// The kinds of tall expressions, and the ways to nest statements.
pub const TALL: usize = 6;
pub const NESTED: usize = 5;

/// A true expression of that height; it may assign to `x`.
fn tall(code: &mut Code, kind: usize, height: u16) -> u16 {
    let zero = code.integer(0);
    let mut node = code.bool(kind != 0 || height % 2 == 1);
    if kind < 3 {
        let sum = (2..height).fold(zero, |sum, _| match kind {
            1 => code.binary(sum, PLUS, zero),
            _ => code.binary(zero, PLUS, sum),
        });
        return match kind {
            0 => (1..height).fold(node, |node, _| code.unary(BANG, node)),
            1 => code.binary(sum, COMPARE, zero),
            _ => code.binary(zero, COMPARE, sum),
        };
    }
    let leaf = node;
    for at in 1..height {
        node = match kind {
            3 => code.assign("x", node),
            4 => code.binary(leaf, COMPARE, node),
            _ if height - at == 1 && at % 2 == 1 => code.over("Grouping", node),
            _ if at % 2 == 1 => code.over("OkLiteral", node),
            _ => code.result("result_unwrap", node),
        };
    }
    node
}

/// A call of a tall expression, of a function that requires of two others that
/// they hold: one does, one does not.
pub fn called(kind: usize) -> Image {
    let mut code = Code::new(Builder::new(1).interning());
    let holds = tall(&mut code, kind, EXPRESSION_HEIGHT);
    let fails = tall(&mut code, kind, EXPRESSION_HEIGHT - 1);
    let fails = code.unary(BANG, fails);
    let (name, body, list) =
        (code.builder.text("f"), code.builder.list(&[]), code.builder.list(&[holds]));
    code.builder.parameter(name, None);
    code.builder.clause(holds, Some(fails));
    code.builder.clause(fails, Some(holds));
    let (span, result, parameters) = (1, false, (0, 1));
    let (requires, ensures) = ((0, 2), (0, 0));
    code.builder.function(Function { name, span, parameters, result, body, requires, ensures });
    code.builder.call(name, 2, list);
    code.builder.image
}

/// A return of a tall expression inside as many statements as can be, whose
/// conditions are tall too.
pub fn nested(way: usize, kind: usize) -> Image {
    nested_to(way, kind, [EXPRESSION_HEIGHT, STATEMENT_HEIGHT])
}

/// The same up to other heights.
pub fn nested_to(way: usize, kind: usize, [expressions, statements]: [u16; 2]) -> Image {
    code::image(&["x"], |code| {
        let holds = tall(code, kind, expressions);
        let fails = tall(code, kind, expressions - 1);
        let fails = code.unary(BANG, fails);
        let mut height = 1;
        let mut inner = code.give(holds);
        while height < statements {
            let room = statements - height;
            let made = match way {
                0 => (code.while_loop(holds, &[inner]), 1),
                2 if room > 1 => (code.when(holds, &[inner]), 2),
                3 if room > 1 => {
                    let (branch, other) =
                        (code.branch(Some(fails), &[]), code.branch(None, &[inner]));
                    (code.conditional(branch, Some(other)), 2)
                }
                4 if height == 1 => (code.when(holds, &[inner]), 2),
                4 => {
                    let branch = code.branch(Some(fails), &[]);
                    (code.conditional(branch, Some(inner)), 1)
                }
                _ => (code.endless(&[inner]), 1),
            };
            inner = made.0;
            height += made.1;
        }
        vec![inner]
    })
}

/// As many loops inside one another as can be, the innermost with an empty body;
/// each has a tall condition, or none.
pub fn emptied(kind: Option<usize>) -> Image {
    code::image(&["x"], |code| {
        let holds = kind.map(|kind| tall(code, kind, EXPRESSION_HEIGHT));
        let mut body = vec![];
        for _ in 0..STATEMENT_HEIGHT {
            body = vec![match holds {
                Some(holds) => code.while_loop(holds, &body),
                None => code.endless(&body),
            }];
        }
        body
    })
}

/// Bindings of long names, as many as can be, by texts of their own.
fn long_bindings() -> (Code, Vec<u16>) {
    let mut builder: Builder = long(BINDINGS);
    builder.image.texts.extend(builder.image.texts.clone());
    let mut code = Code::new(builder);
    let zero = code.integer(0);
    let declare = |name: u16| {
        let fields = [name.into(), 0.into(), zero.into(), 0.into()];
        code.statement("VariableDeclaration", &fields)
    };
    let body = (0..BINDINGS as u16).map(declare).collect();
    (code, body)
}

fn finished(mut code: Code, mut body: Vec<u16>, node: u16) -> Image {
    let turn = code.bare(node);
    body.push(code.endless(&[turn]));
    code.function_of(0, (0, 0), &body);
    code.builder.image
}

/// An endless loop over a sum of the earliest bindings, whose long names are
/// looked up by other texts of the same bytes.
pub fn long_names() -> Image {
    let (mut code, body) = long_bindings();
    let first = BINDINGS as u16;
    let name = |name: u16| code.node("Identifier", &[(first + name % 4).into()]);
    let names = (0..32).map(name).collect();
    let sum = joined(&mut code.builder, PLUS, names);
    finished(code, body, sum)
}

/// An endless loop over comparisons of long texts.
pub fn long_texts() -> Image {
    let (mut code, body) = long_bindings();
    let text = |text: u16| code.node("String", &[text.into()]);
    let texts: Vec<u16> = (0..33).map(text).collect();
    let pairs = texts.windows(2).map(|pair| code.binary(pair[0], LESS, pair[1]));
    let pairs = pairs.collect();
    let all = joined(&mut code.builder, COMPARE, pairs);
    finished(code, body, all)
}

//! Functions at the limits of lowering, and past them.

use super::with_clauses;
use crate::builder::{Builder, Operand};
use crate::code::{self, Code};
use crate::deep::{nested_to, NESTED, TALL};
use crate::edges::{expression_chain, statement_chain};
use crate::encode::encode;
use crate::hostile;
use crate::image::{Image, Value, LENGTH_LIMIT, LIMITS, NONE};
use crate::lower::{lowered, Limits, EXPRESSION_HEIGHT, STATEMENT_HEIGHT};
use crate::schema::Section;

const COMPARE: u16 = 6;

/// The limits that lowering can come to: of five counts, and of the bytes.
pub const WAYS: usize = 6;

/// No limit that these images come to.
pub const NO_LIMITS: Limits = Limits { counts: [NONE as usize; 5], bytes: usize::MAX };

/// All images below.
pub fn all() -> Vec<Image> {
    let fitting = fitting().into_iter().map(|(.., image)| image);
    let heights = heights().into_iter().map(|(_, image)| image);
    fitting.chain(heights).chain(deepest()).chain(only_lowered()).chain(hostile()).collect()
}

/// How much of a limit the image takes.
fn used(image: &Image, way: usize) -> usize {
    match way {
        5 => encode(image).len(),
        _ => image.counts()[way],
    }
}

fn limit(way: usize) -> usize {
    if way == 5 {
        LENGTH_LIMIT
    } else {
        LIMITS[way]
    }
}

/// How much more of a limit the lowered image takes.
pub fn growth(image: &Image, function: usize, way: usize) -> usize {
    let lowered = lowered(image, function, NO_LIMITS).expect("a small function");
    used(&lowered, way) - used(image, way)
}

/// The image with more records that nothing uses, so that exactly so much is
/// left up to one limit; none where it has less.
pub fn filled(image: &Image, way: usize, left: usize) -> Option<Image> {
    let more = limit(way).checked_sub(left)?.checked_sub(used(image, way))?;
    let mut builder = Builder::default();
    builder.image = image.clone();
    match way {
        0 => builder.image.text.resize(LIMITS[0] - left, b'x'),
        1 => builder.image.texts.resize(LIMITS[1] - left, (0, 0)),
        2 => builder.image.entries.resize(LIMITS[2] - left, 0),
        3 => (0..more).for_each(|span| _ = builder.node(span as u32, "Null", &[])),
        4 => (0..more).for_each(|span| _ = builder.statement(span as u32, "Break", &[])),
        _ => {
            // Wide records, then raw text.
            let nodes = (more / 13).min(3_000);
            let declared = ((more - 13 * nodes) / 17).min(1_000);
            let fields = [0; 4].map(Value::Number);
            (0..nodes).for_each(|_| _ = builder.node(7, "Integer", &fields[..1]));
            (0..declared).for_each(|_| _ = builder.statement(7, "VariableDeclaration", &fields));
            let rest = more - 13 * nodes - 17 * declared;
            builder.image.text.resize(image.text.len() + rest, b'x');
        }
    }
    Some(builder.image)
}

/// Small functions with contracts of all sorts.
pub fn small() -> Vec<Image> {
    let mut all = Vec::new();
    for result in [0, 1] {
        for body in 0..4 {
            let mut image = function(body);
            image.of_mut(Section::Function)[0].values[3] = result.into();
            all.push(image);
        }
    }
    all
}

fn function(body: usize) -> Image {
    let mut code = Code::new(Builder::new(1));
    let (n, s) = (code.builder.text("n"), code.builder.text("s"));
    let first = match body {
        0 => (0, 0),
        _ => {
            code.builder.parameter(n, Some((2, Operand::Integer(-40))));
            code.builder.parameter(s, Some((6, Operand::Str(n))));
            (0, 2)
        }
    };
    let condition = code.with("n", COMPARE, 1);
    let list = code.builder.list(&[condition, condition]);
    let tuple = code.node("TupleLiteral", &[list]);
    let message = code.string("not one");
    let value = code.name("n");
    let (give, alone) = (code.give(value), code.statement("ReturnAlone", &[]));
    let statements = match body {
        0 => vec![give],
        1 => vec![],
        2 => vec![code.bare(value)],
        _ => vec![code.when(condition, &[give]), code.endless(&[alone, give])],
    };
    code.function_of(n, first, &statements);
    let ensures = [(condition, None), (tuple, Some(message))];
    let requires = [(tuple, None), (condition, Some(message))];
    match body {
        0 => with_clauses(code.builder.image, 0, &[], &ensures[..1]),
        1 => with_clauses(code.builder.image, 0, &requires, &[]),
        _ => with_clauses(code.builder.image, 0, &requires, &ensures),
    }
}

/// Each of the small functions with just enough left up to each limit, and
/// with less: how much, how much is needed, and the image.
pub fn fitting() -> Vec<(usize, usize, Image)> {
    let mut all = Vec::new();
    for (image, way) in small().iter().flat_map(|image| (0..WAYS).map(move |way| (image, way))) {
        let needed = growth(image, 0, way);
        let mut lefts = vec![needed + 1, needed, 0, needed / 2, needed / 3];
        lefts.extend(needed.checked_sub(1));
        for left in lefts {
            all.extend(filled(image, way, left).map(|image| (left, needed, image)));
        }
    }
    all
}

/// Expressions and statements of the greatest heights, and of one more, in a
/// function that has no part in them; with a contract and without.
pub fn heights() -> Vec<(bool, Image)> {
    let mut all = Vec::new();
    for more in [0, 1, 4] {
        let chains = [
            expression_chain(usize::from(EXPRESSION_HEIGHT) + more),
            statement_chain(usize::from(STATEMENT_HEIGHT) + more),
        ];
        for chain in chains {
            let mut builder = Builder::default();
            builder.image = chain;
            let name = builder.text("f");
            let mut code = Code::new(builder);
            code.function_of(name, (0, 0), &[]);
            let image = code.builder.image;
            all.push((more == 0, with_clauses(image.clone(), 0, &[(0, None)], &[])));
            all.push((more == 0, image));
        }
    }
    all
}

/// The deepest functions: a return inside as many statements as can be, whose
/// conditions are as tall as can be, as are the conditions of the contract.
pub fn deepest() -> Vec<Image> {
    let mut all = Vec::new();
    for (way, kind) in (0..NESTED).flat_map(|way| (0..TALL).map(move |kind| (way, kind))) {
        let image = nested_to(way, kind, [EXPRESSION_HEIGHT, STATEMENT_HEIGHT]);
        let tallest = tallest(&image);
        let clauses = [(tallest, None), (tallest, Some(tallest))];
        for result in [0, 1] {
            let mut image = with_clauses(image.clone(), 0, &clauses[..1], &clauses);
            image.of_mut(Section::Function)[0].values[3] = result.into();
            all.push(image);
        }
    }
    all
}

/// The same of statements and expressions that a run does not take.
pub fn only_lowered() -> Vec<Image> {
    let mut all = Vec::new();
    for (way, kind) in (0..4).flat_map(|way| (0..7).map(move |kind| (way, kind))) {
        let image = code::image(&["x"], |code| {
            let tall = (1..EXPRESSION_HEIGHT).fold(code.name("x"), |x, _| over(code, kind, x));
            let (mut inner, mut height) = (code.give(tall), 1);
            while height < STATEMENT_HEIGHT {
                let room = STATEMENT_HEIGHT - height;
                let (made, more) = around(code, if room > 1 { way } else { 0 }, tall, inner);
                (inner, height) = (made, height + more);
            }
            vec![inner]
        });
        let tallest = tallest(&image);
        all.push(with_clauses(image, 0, &[(tallest, None)], &[(tallest, Some(tallest))]));
    }
    all
}

/// An expression that holds another.
fn over(code: &mut Code, kind: usize, inner: u16) -> u16 {
    // The first text, or the first node.
    let first = Value::Number(0);
    let [path, one, pair] = [&[0][..], &[inner], &[0, inner]].map(|list| code.builder.list(list));
    match kind {
        0 => code.node("ArrayLiteral", &[one]),
        1 => code.node("MapLiteral", &[pair]),
        2 => code.node("StructLiteral", &[first, pair]),
        3 => code.node("MethodCall", &[first, path, one]),
        4 => code.node("Call", &[path, one]),
        5 => code.node("IndexAssign", &[first, first, inner.into()]),
        _ => code.node("CallExpr", &[first, one]),
    }
}

/// A statement that holds another, and how much taller it is.
fn around(code: &mut Code, way: usize, node: u16, inner: u16) -> (u16, u16) {
    let (list, text, node) = (code.builder.list(&[inner]), Value::Number(0), Value::from(node));
    let first = Value::from(code.statement("Break", &[]));
    match way {
        0 => (code.statement("ForEach", &[text, node, list]), 1),
        1 => (code.statement("For", &[first, node, node, list]), 1),
        2 => (code.statement("ForRange", &[text, first, list]), 1),
        _ => {
            let arm = code.statement("MatchArm", &[node, list]);
            let arms = code.builder.list(&[arm]);
            (code.statement("Match", &[node, arms]), 2)
        }
    }
}

/// What the only return gives.
fn tallest(image: &Image) -> u16 {
    let mut statements = image.of(Section::Statement).iter();
    let give = statements.find(|statement| statement.kind == 66).expect("a return");
    give.number(1) as u16
}

/// Functions of few records that stand for very many: the lowered image would
/// pass a limit.
pub fn hostile() -> Vec<Image> {
    let mut all = vec![hostile::doubled(usize::from(EXPRESSION_HEIGHT))];
    for way in 0..6 {
        let image = code::image(&["x"], |code| {
            let value = code.name("x");
            let mut inner = code.give(value);
            let mut height = 1;
            while height + 2 <= STATEMENT_HEIGHT {
                (inner, height) = doubled(code, way, value, inner, height);
            }
            vec![inner, inner]
        });
        let condition = image.of(Section::Expression).len() as u16 - 1;
        all.push(with_clauses(image, 0, &[], &[(condition, None)]));
    }
    // Long lists over one record.
    for way in 0..2 {
        let image = code::image(&["x"], |code| {
            let value = code.name("x");
            let mut node = value;
            for _ in 0..8 {
                let list = code.builder.list(&[node; 200]);
                node = code.node("ArrayLiteral", &[list]);
            }
            let mut inner = code.statement("Break", &[]);
            for _ in 0..8 {
                inner = code.endless(&[inner; 200]);
            }
            vec![inner]
        });
        let last = image.of(Section::Expression).len() as u16 - 1;
        let condition = [last, 0][way];
        let clause = [(condition, None)];
        all.push(match way {
            0 => with_clauses(image, 0, &clause, &[]),
            _ => with_clauses(image, 0, &[], &clause),
        });
    }
    all
}

/// A statement that holds another twice.
fn doubled(code: &mut Code, way: usize, node: u16, inner: u16, height: u16) -> (u16, u16) {
    let list = code.builder.list(&[inner, inner]);
    let text = Value::Number(0);
    match way {
        0 => (code.endless(&[inner, inner]), height + 1),
        1 => (code.while_loop(node, &[inner, inner]), height + 1),
        2 => {
            let branch = code.branch(Some(node), &[inner]);
            (code.conditional(branch, Some(branch)), height + 2)
        }
        3 => {
            let list = code.builder.list(&[inner]);
            let arm = code.statement("MatchArm", &[NONE.into(), list]);
            let arms = code.builder.list(&[arm, arm]);
            (code.statement("Match", &[node.into(), arms]), height + 2)
        }
        4 => (code.statement("ForEach", &[text, node.into(), list]), height + 1),
        _ => {
            let fields = [inner.into(), node.into(), node.into(), list];
            (code.statement("For", &fields), height + 1)
        }
    }
}

//! Small functions, chosen by hand.

use rlimg::builder::Builder;
use rlimg::code::{self, Code};
use rlimg::image::{Image, Value};
use rlimg::run::BINDINGS;

const PLUS: u16 = 1;
const MINUS: u16 = 2;
const STAR: u16 = 3;
const SLASH: u16 = 4;
const BANG: u16 = 5;
const COMPARE: u16 = 6;
const LESS: u16 = 8;
const GREATER: u16 = 10;

fn body(make: impl FnOnce(&mut Code) -> Vec<u16>) -> Image {
    code::image(&[], make)
}

/// A body of one bare expression.
fn bare(make: impl FnOnce(&mut Code) -> u16) -> Image {
    body(|code| {
        let node = make(code);
        vec![code.bare(node)]
    })
}

/// Adds one to a name.
fn next(code: &mut Code, name: &str) -> u16 {
    let sum = code.with(name, PLUS, 1);
    code.set(name, sum)
}

/// Functions without parameters to be run with several budgets: loops,
/// conditionals, scopes, and one for each fault.
pub fn around() -> Vec<Image> {
    vec![
        body(|_| vec![]),
        body(counting),
        body(leaving),
        body(scopes),
        body(chain),
        body(small_constants),
        body(|code| bindings(code, BINDINGS)),
        body(|code| bindings(code, BINDINGS + 1)),
        bare(unwrapping),
        body(|code| vec![code.branch(None, &[])]),
        body(|code| vec![code.statement("Continue", &[])]),
        bare(|code| {
            let one = code.integer(1);
            code.result("is_err", one)
        }),
        bare(|code| code.name("x")),
        bare(|code| {
            let (seven, zero) = (code.integer(7), code.integer(0));
            code.binary(seven, SLASH, zero)
        }),
    ]
}

/// let i = 0; while i < 3 { i = i + 1 } return i
fn counting(code: &mut Code) -> Vec<u16> {
    let (zero, i) = (code.integer(0), code.name("i"));
    let condition = code.with("i", LESS, 3);
    let body = next(code, "i");
    vec![code.declare("i", zero), code.while_loop(condition, &[body]), code.give(i)]
}

/// let i = 0; loop { i = i + 1; if i < 3 { continue } if i > 4 { break } } i
fn leaving(code: &mut Code) -> Vec<u16> {
    let (zero, i) = (code.integer(0), code.name("i"));
    let (small, large) = (code.with("i", LESS, 3), code.with("i", GREATER, 4));
    let (again, out) = (code.statement("Continue", &[]), code.statement("Break", &[]));
    let body = [next(code, "i"), code.when(small, &[again]), code.when(large, &[out])];
    vec![code.declare("i", zero), code.endless(&body), code.bare(i)]
}

/// let x = 1; if { let x = 2; x = 3 } if { x = x * 4 } x, each x another text
fn scopes(code: &mut Code) -> Vec<u16> {
    *code = Code::new(Builder::new(2));
    let [one, two, three] = [1, 2, 3].map(|value| code.integer(value));
    let inner = [code.declare("x", two), code.set("x", three)];
    let first = code.branch(None, &inner);
    let product = code.with("x", STAR, 4);
    let second = code.set("x", product);
    let second = code.branch(None, &[second]);
    let declared = code.declare("x", one);
    let conditionals = [first, second].map(|branch| code.conditional(branch, None));
    let x = code.name("x");
    vec![declared, conditionals[0], conditionals[1], code.bare(x)]
}

/// if false { } else if false { } else if "a" < "b" { return "b" } else { }
fn chain(code: &mut Code) -> Vec<u16> {
    let (never, a, b) = (code.bool(false), code.string("a"), code.string("b"));
    let holds = code.binary(a, LESS, b);
    let given = code.give(b);
    let (third, last) = (code.branch(Some(holds), &[given]), code.branch(None, &[]));
    let third = code.conditional(third, Some(last));
    let [first, second] = [never, never].map(|condition| code.branch(Some(condition), &[]));
    let second = code.conditional(second, Some(third));
    vec![code.conditional(first, Some(second))]
}

/// let x = Byte 255; while SByte -1 < x { x = x - Byte 128 }
/// return result_unwrap(Err(-x * BSByte -32768 + SUInt 4294967295 - BByte 65535))
fn small_constants(code: &mut Code) -> Vec<u16> {
    let [most, half, minus_one] =
        [("Byte", 255), ("Byte", 128), ("SByte", -1)].map(|small| code.small(small));
    let [least, large, wide] = [("BSByte", -32_768), ("SUInt", 4_294_967_295), ("BByte", 65_535)]
        .map(|small| code.small(small));
    let x = code.name("x");
    let condition = code.binary(minus_one, LESS, x);
    let less = code.binary(x, MINUS, half);
    let body = code.set("x", less);
    let negated = code.unary(MINUS, x);
    let product = code.binary(negated, STAR, least);
    let sum = code.binary(product, PLUS, large);
    let difference = code.binary(sum, MINUS, wide);
    let err = code.over("ErrLiteral", difference);
    let stop = code.result("result_unwrap", err);
    vec![code.declare("x", most), code.while_loop(condition, &[body]), code.give(stop)]
}

fn bindings(code: &mut Code, count: usize) -> Vec<u16> {
    let null = code.null();
    let declared = code.declare("x", null);
    vec![declared; count]
}

/// result_unwrap(Err("no"))
fn unwrapping(code: &mut Code) -> u16 {
    let message = code.string("no");
    let err = code.over("ErrLiteral", message);
    code.result("result_unwrap", err)
}

/// Functions that are run once, on values.
pub fn once() -> Vec<(Image, Vec<u64>)> {
    let mut all = parameters();
    let alone = literals().into_iter().chain(results()).chain(not_taken());
    all.extend(alone.map(|image| (image, Vec::new())));
    all
}

/// Values of every sort, handed in and given back, and operators on them.
fn parameters() -> Vec<(Image, Vec<u64>)> {
    let same = code::image(&["a"], |code| {
        let a = code.name("a");
        vec![code.give(a)]
    });
    let latest = code::image(&["a", "b", "a"], |code| {
        let a = code.name("a");
        vec![code.give(a)]
    });
    let sum = code::image(&["a", "b"], |code| {
        let (a, b) = (code.name("a"), code.name("b"));
        let sum = code.binary(a, PLUS, b);
        vec![code.bare(sum)]
    });
    let (half, nan) = (0.5_f64.to_bits(), (-f64::NAN).to_bits() | 1);
    let values = [
        [0, 0],
        [1, u64::MAX],
        [2, half],
        [2, nan],
        [10, nan],
        [3, 1],
        [4, 1],
        [8, 0],
        [19, 0],
        [20, 0],
    ];
    let mut all: Vec<(Image, Vec<u64>)> =
        values.into_iter().map(|words| (same.clone(), words.to_vec())).collect();
    all.push((latest, vec![1, 1, 1, 2, 12, 1]));
    for words in [[1, 2, 1, 3], [1, 1, 2, half], [0, 0, 1, 1], [9, 1, 1, 1], [2, nan, 1, 1]] {
        all.push((sum.clone(), words.to_vec()));
    }
    all.push((sum, vec![1, i64::MAX as u64, 1, 1]));
    all
}

fn literals() -> Vec<Image> {
    let numbers = [
        ("SInt", 0xffff_fff9),
        ("UInt", 7),
        ("UInt", 1 << 63),
        ("SUInt", 0),
        ("SUInt", 0x8000_0000),
        ("SUInt", 0xffff_ffff),
        ("Byte", 0),
        ("Byte", 0x80),
        ("Byte", 0xff),
        ("SByte", 0x7f),
        ("SByte", 0x80),
        ("BByte", 0),
        ("BByte", 0xff),
        ("BByte", 0xffff),
        ("BSByte", 0x80),
        ("BSByte", 0x7fff),
        ("BSByte", 0x8000),
        ("Character", 65),
        ("SFloat", 0x3fc0_0000),
        ("Float", 0xfff0_0000_0000_0000),
        ("Lambda", 1),
    ];
    let mut images: Vec<Image> = numbers
        .into_iter()
        .map(|(name, bits)| bare(|code| code.node(name, &[Value::Number(bits)])))
        .collect();
    images.push(bare(|code| {
        let holds = code.bool(true);
        let fails = code.unary(BANG, holds);
        code.over("Grouping", fails)
    }));
    images.push(bare(|code| {
        let (null, unknown) = (code.null(), code.name("x"));
        code.binary(null, MINUS, unknown)
    }));
    images.push(body(|code| vec![code.statement("ReturnAlone", &[])]));
    images
}

fn results() -> Vec<Image> {
    let over = |names: &'static [&'static str]| {
        bare(|code| {
            let one = code.integer(1);
            names.iter().fold(one, |node, name| match *name {
                "is_err" | "result_unwrap" | "is_ok" => code.result(name, node),
                _ => code.over(name, node),
            })
        })
    };
    let mut images: Vec<Image> = [
        &["OkLiteral"][..],
        &["ErrLiteral"],
        &["OkLiteral", "ErrLiteral"],
        &["OkLiteral", "is_err"],
        &["ErrLiteral", "is_err"],
        &["OkLiteral", "result_unwrap"],
        &["OkLiteral", "is_ok"],
        &["result_unwrap"],
    ]
    .map(over)
    .to_vec();
    images.push(bare(|code| {
        let one = code.integer(1);
        let ok = code.over("OkLiteral", one);
        code.call(&["std", "res", "is_err"], &[ok, ok])
    }));
    images.push(bare(|code| {
        let one = code.integer(1);
        let ok = code.over("OkLiteral", one);
        code.binary(ok, COMPARE, ok)
    }));
    images
}

/// Statements that are not taken, and conditions of a wrong sort.
fn not_taken() -> Vec<Image> {
    let statement = |which: usize| {
        body(|code| {
            let (x, n, empty) = (code.builder.text("x"), code.null(), code.builder.list(&[]));
            let inner = code.statement("Break", &[]);
            let made = match which {
                0 => code.statement("For", &[inner.into(), n.into(), n.into(), empty]),
                1 => code.statement("ForRange", &[x.into(), inner.into(), empty]),
                2 => code.statement("ForEach", &[x.into(), n.into(), empty]),
                3 => code.statement("Match", &[n.into(), empty]),
                4 => code.statement("Other", &[0.into()]),
                5 => code.when(n, &[inner]),
                6 => {
                    let byte = code.small(("Byte", 1));
                    code.when(byte, &[inner])
                }
                _ => code.while_loop(n, &[inner]),
            };
            vec![made]
        })
    };
    (0..8).map(statement).collect()
}

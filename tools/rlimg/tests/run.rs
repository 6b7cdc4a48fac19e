//! The independent runner: every statement, fault and outcome, with steps that
//! were counted by hand.

use rlimg::code::{self, Code};
use rlimg::encode::encode;
use rlimg::fold::Folded::{self, Bool, Float, Int, Str};
use rlimg::image::{Image, Value as Field, WORK};
use rlimg::reader::read;
use rlimg::run::Ending::{self, Returned, Spent, Stopped};
use rlimg::run::{Fault, Outcome, Program, Value, BINDINGS, BUDGET, NULL};

const PLUS: u16 = 1;
const MINUS: u16 = 2;
const SLASH: u16 = 4;
const BANG: u16 = 5;
const COMPARE: u16 = 6;
const LESS: u16 = 8;

fn given(value: Folded) -> Ending {
    Returned(Value::Plain(Some(value)))
}

fn run(image: &Image, values: &[Value], budget: u32) -> Outcome {
    assert!(read(&encode(image), WORK).is_ok());
    Program::new(image).run(0, values, budget).expect("no refusal")
}

/// Runs with all of a budget, with just enough of one and with one less.
fn check_on(image: &Image, values: &[Value], ending: Ending, steps: u32) {
    for budget in [BUDGET, steps] {
        assert_eq!(run(image, values, budget), Outcome { ending, steps });
    }
    if let Some(budget) = steps.checked_sub(1) {
        assert_eq!(run(image, values, budget), Outcome { ending: Spent, steps: budget });
    }
}

fn check(body: impl FnOnce(&mut Code) -> Vec<u16>, ending: Ending, steps: u32) {
    check_on(&code::image(&[], body), &[], ending, steps);
}

/// A body of one return.
fn check_value(node: impl FnOnce(&mut Code) -> u16, ending: Ending, nodes: u32) {
    check(
        |code| {
            let node = node(code);
            vec![code.give(node)]
        },
        ending,
        1 + nodes,
    );
}

fn fault(fault: Fault) -> Ending {
    Ending::Fault(fault)
}

#[test]
fn the_end_of_a_body() {
    check(|_| vec![], Returned(NULL), 0);
    check(
        |code| {
            let five = code.integer(5);
            vec![code.bare(five)]
        },
        given(Int(5)),
        2,
    );
    let bare_first = |code: &mut Code| {
        let (five, six) = (code.integer(5), code.integer(6));
        vec![code.bare(five), code.declare("x", six)]
    };
    check(bare_first, Returned(NULL), 4);
    // A bare expression that ends a branch gives nothing.
    let in_branch = |code: &mut Code| {
        let five = code.integer(5);
        let body = code.bare(five);
        let branch = code.branch(None, &[body]);
        vec![code.conditional(branch, None)]
    };
    check(in_branch, Returned(NULL), 3);
    check(
        |code| {
            let n = code.null();
            vec![code.give(n), code.bare(n)]
        },
        Returned(NULL),
        2,
    );
    check(|code| vec![code.statement("ReturnAlone", &[])], Returned(NULL), 1);
}

#[test]
fn literals_and_operators() {
    check_value(|code| code.node("SInt", &[Field::Number(0xffff_fffe)]), given(Int(-2)), 1);
    check_value(|code| code.node("UInt", &[Field::Number(7)]), given(Int(7)), 1);
    let large = |code: &mut Code| code.node("UInt", &[Field::Number(1 << 63)]);
    check_value(large, fault(Fault::NoValue), 1);
    check_value(|code| code.float(1.5), given(Float(1.5)), 1);
    check_value(|code| code.string("x"), given(Str(0)), 1);
    check_value(|code| code.null(), Returned(NULL), 1);
    check_value(|code| code.node("Character", &[Field::Number(65)]), fault(Fault::NotTaken), 1);
    check_value(
        |code| {
            let t = code.bool(true);
            code.unary(BANG, t)
        },
        given(Bool(false)),
        2,
    );
    check_value(
        |code| {
            let t = code.bool(true);
            code.over("Grouping", t)
        },
        given(Bool(true)),
        2,
    );
    let sum = |code: &mut Code| {
        let (one, half) = (code.integer(1), code.float(0.5));
        code.binary(one, PLUS, half)
    };
    check_value(sum, given(Float(1.5)), 3);
    let quotient = |code: &mut Code| {
        let (seven, zero) = (code.integer(7), code.integer(0));
        code.binary(seven, SLASH, zero)
    };
    check_value(quotient, fault(Fault::NoValue), 3);
    check_value(
        |code| {
            let n = code.null();
            code.unary(MINUS, n)
        },
        fault(Fault::NoValue),
        2,
    );
    // The right operand is evaluated though the left one folds to nothing.
    let nothing = |code: &mut Code| {
        let (null, unknown) = (code.null(), code.name("x"));
        code.binary(null, PLUS, unknown)
    };
    check_value(nothing, fault(Fault::UnknownName), 3);
    let ok = |code: &mut Code| {
        let one = code.integer(1);
        let ok = code.over("OkLiteral", one);
        code.binary(ok, COMPARE, ok)
    };
    check_value(ok, fault(Fault::NoValue), 5);
}

#[test]
fn ok_and_err() {
    let wrapped = |name: &'static str| {
        move |code: &mut Code| {
            let one = code.integer(1);
            code.over(name, one)
        }
    };
    check_value(wrapped("OkLiteral"), Returned(Value::Ok(Some(Int(1)))), 2);
    check_value(wrapped("ErrLiteral"), Returned(Value::Err(Some(Int(1)))), 2);
    for (name, outer) in [("OkLiteral", "OkLiteral"), ("ErrLiteral", "OkLiteral")] {
        let twice = |code: &mut Code| {
            let inner = wrapped(name)(code);
            code.over(outer, inner)
        };
        check_value(twice, fault(Fault::WrongSort), 3);
    }
    let call = |name: &'static str, of: &'static str| {
        move |code: &mut Code| {
            let inner = wrapped(of)(code);
            code.result(name, inner)
        }
    };
    check_value(call("is_err", "OkLiteral"), given(Bool(false)), 3);
    check_value(call("is_err", "ErrLiteral"), given(Bool(true)), 3);
    check_value(call("result_unwrap", "OkLiteral"), given(Int(1)), 3);
    check_value(call("result_unwrap", "ErrLiteral"), Stopped(Some(Int(1))), 3);
    check_value(call("is_err", "Grouping"), fault(Fault::WrongSort), 3);
    check_value(call("result_unwrap", "Grouping"), fault(Fault::WrongSort), 3);
    check_value(call("is_ok", "OkLiteral"), fault(Fault::NotTaken), 1);
    let two = |code: &mut Code| {
        let inner = wrapped("OkLiteral")(code);
        code.call(&["std", "res", "is_err"], &[inner, inner])
    };
    check_value(two, fault(Fault::NotTaken), 1);
    let short = |code: &mut Code| {
        let inner = wrapped("OkLiteral")(code);
        code.call(&["res", "is_err"], &[inner])
    };
    check_value(short, fault(Fault::NotTaken), 1);
}

#[test]
fn names() {
    check_value(|code| code.name("x"), fault(Fault::UnknownName), 1);
    let assigned = |code: &mut Code| {
        let one = code.integer(1);
        code.assign("x", one)
    };
    check_value(assigned, fault(Fault::UnknownName), 2);
    let resolved = |code: &mut Code| {
        let name = code.builder.text("x");
        code.node("ResolvedIdentifier", &[name.into(), 0.into(), 0.into()])
    };
    check_value(resolved, fault(Fault::NotTaken), 1);
    // let x = 1; if { let x = 2; x = 3; let y = 4 } x
    let scoped = |code: &mut Code| {
        let [one, two, three, four] = [1, 2, 3, 4].map(|value| code.integer(value));
        let outer = code.declare("x", one);
        let inner = [code.declare("x", two), code.set("x", three), code.declare("y", four)];
        let branch = code.branch(None, &inner);
        let x = code.name("x");
        vec![outer, code.conditional(branch, None), code.bare(x)]
    };
    check(scoped, given(Int(1)), 2 + 1 + (2 + 3 + 2) + 2);
    // The same, assigning to the outer one, whose text is another of the same bytes.
    let outer = |code: &mut Code| {
        *code = Code::default();
        let (one, three) = (code.integer(1), code.integer(3));
        let (outer, set) = (code.declare("x", one), code.set("x", three));
        let branch = code.branch(None, &[set]);
        let x = code.name("x");
        vec![outer, code.conditional(branch, None), code.bare(x)]
    };
    check(outer, given(Int(3)), 2 + 1 + 3 + 2);
    let latest = code::image(&["x", "x"], |code| {
        let x = code.name("x");
        vec![code.bare(x)]
    });
    check_on(&latest, &[NULL, Value::Err(Some(Int(2)))], Returned(Value::Err(Some(Int(2)))), 2);
}

/// let i = 0; while i < 3 { i = i + 1 }
fn counting(code: &mut Code) -> Vec<u16> {
    let zero = code.integer(0);
    let first = code.declare("i", zero);
    let condition = code.with("i", LESS, 3);
    let more = code.with("i", PLUS, 1);
    let body = code.set("i", more);
    vec![first, code.while_loop(condition, &[body])]
}

#[test]
fn loops() {
    // 2 to declare, 1 to begin, 3 turns of 1 + 3 + 5, a last one of 1 + 3.
    check(counting, Returned(NULL), 2 + 1 + 3 * 9 + 4);
    let left = |code: &mut Code| {
        let (out, never) = (code.statement("Break", &[]), code.statement("ReturnAlone", &[]));
        vec![code.endless(&[out, never])]
    };
    check(left, Returned(NULL), 3);
    // let i = 0; loop { i = i + 1; if i < 3 { continue } break; } i
    let again = |code: &mut Code| {
        let zero = code.integer(0);
        let first = code.declare("i", zero);
        let more = code.with("i", PLUS, 1);
        let set = code.set("i", more);
        let small = code.with("i", LESS, 3);
        let again = code.statement("Continue", &[]);
        let again = code.when(small, &[again]);
        let out = code.statement("Break", &[]);
        let i = code.name("i");
        vec![first, code.endless(&[set, again, out]), code.bare(i)]
    };
    check(again, given(Int(3)), 2 + 1 + 2 * (1 + 5 + 4 + 1) + (1 + 5 + 4 + 1) + 2);
    // A turn without statements costs 1.
    let endless = code::image(&[], |code| vec![code.endless(&[])]);
    let spent = Outcome { ending: Spent, steps: BUDGET };
    assert_eq!(run(&endless, &[], BUDGET), spent);
    for name in ["Break", "Continue"] {
        let outside = |code: &mut Code| {
            let out = code.statement(name, &[]);
            let branch = code.branch(None, &[out]);
            vec![code.conditional(branch, None)]
        };
        check(outside, fault(Fault::NotTaken), 2);
    }
    let whole = |code: &mut Code| {
        let one = code.integer(1);
        vec![code.while_loop(one, &[])]
    };
    check(whole, fault(Fault::WrongSort), 3);
}

#[test]
fn conditionals() {
    /// Conditions of the branch and of the else branch, and the value.
    type Row = (Option<bool>, Option<bool>, Option<i64>, u32);
    let rows: [Row; 6] = [
        (Some(true), None, Some(1), 1 + 1 + 2),
        (Some(false), None, Some(2), 1 + 1 + 2),
        (Some(false), Some(true), Some(2), 1 + 1 + 1 + 2),
        (Some(false), Some(false), None, 1 + 1 + 1),
        (None, None, Some(1), 1 + 2),
        (None, Some(true), Some(1), 1 + 2),
    ];
    for (first, second, value, steps) in rows {
        // With the else branch as it is, and as the branch of a conditional.
        for is_chain in [false, true] {
            let body = |code: &mut Code| {
                let [first, second] = [first, second].map(|c| c.map(|c| code.bool(c)));
                let [one, two] = [1, 2].map(|value| code.integer(value));
                let [one, two] = [one, two].map(|node| code.give(node));
                let branch = code.branch(first, &[one]);
                let mut other = code.branch(second, &[two]);
                if is_chain {
                    other = code.conditional(other, None);
                }
                vec![code.conditional(branch, Some(other))]
            };
            let ending = value.map_or(Returned(NULL), |value| given(Int(value)));
            check(body, ending, steps);
        }
    }
    let whole = |code: &mut Code| {
        let one = code.integer(1);
        vec![code.when(one, &[])]
    };
    check(whole, fault(Fault::WrongSort), 2);
    check(|code| vec![code.branch(None, &[])], fault(Fault::NotTaken), 1);
}

#[test]
fn statements_that_are_not_taken() {
    let all = |code: &mut Code| {
        let (x, n, empty) = (code.builder.text("x"), code.null(), code.builder.list(&[]));
        let inner = code.statement("Break", &[]);
        let arm = code.statement("MatchArm", &[n.into(), empty]);
        let arms = code.builder.list(&[arm]);
        vec![
            code.statement("For", &[inner.into(), n.into(), n.into(), empty]),
            code.statement("ForRange", &[x.into(), inner.into(), empty]),
            code.statement("ForEach", &[x.into(), n.into(), empty]),
            code.statement("Match", &[n.into(), arms]),
            code.statement("Other", &[0.into()]),
        ]
    };
    for at in 0..5 {
        check(|code| vec![all(code)[at]], fault(Fault::NotTaken), 1);
    }
}

#[test]
fn bindings_up_to_the_limit() {
    let declares = |count: usize| {
        move |code: &mut Code| {
            let one = code.integer(1);
            (0..count).map(|_| code.declare("x", one)).collect()
        }
    };
    let most = BINDINGS as u32;
    check(declares(BINDINGS), Returned(NULL), 2 * most);
    check(declares(BINDINGS + 1), fault(Fault::TooManyBindings), 2 * most + 2);
    let image = code::image(&["a"; 16], declares(BINDINGS - 16));
    check_on(&image, &[NULL; 16], Returned(NULL), 2 * (most - 16));
    let image = code::image(&["a"; 16], declares(BINDINGS - 15));
    check_on(&image, &[NULL; 16], fault(Fault::TooManyBindings), 2 * (most - 15));
    // Each turn's bindings are gone with it.
    let turns = |code: &mut Code| {
        let one = code.integer(1);
        let body: Vec<u16> = (0..100).map(|_| code.declare("x", one)).collect();
        let mut all = counting(code);
        let condition = code.with("i", LESS, 6);
        let more = code.with("i", PLUS, 1);
        let set = code.set("i", more);
        all.push(code.while_loop(condition, &[&body[..], &[set]].concat()));
        all
    };
    check(turns, Returned(NULL), 34 + 1 + 3 * (1 + 3 + 200 + 5) + 4);
}

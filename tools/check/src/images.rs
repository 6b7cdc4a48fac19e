//! Images that the benchmarks read and prove.

use rlimg::builder::{Builder, Function, Operand};
use rlimg::encode::encode;
use rlimg::image::{Image, Value, LENGTH_LIMIT, LIMITS};

const PLUS: u16 = 1;
const STAR: u16 = 3;
const LESS: u16 = 8;
const GE: u16 = 2;

/// Ten functions with contracts and bodies, and up to three calls of each.
pub fn typical(calls: usize) -> Image {
    let mut builder = Builder::new(1);
    for rule in 0..10 {
        rule_of(&mut builder, rule, calls);
    }
    builder.image
}

fn rule_of(builder: &mut Builder, rule: u16, calls: usize) {
    let span = u32::from(rule) * 100;
    let name = builder.text(&format!("open_service_flow_{rule}"));
    let parameters = (2 * rule, 2);
    for (parameter, least) in [("flow", 1), ("priority", 0)] {
        let parameter = builder.text(parameter);
        builder.parameter(parameter, Some((GE, Operand::Integer(least))));
    }
    let clauses = (2 * rule, 2);
    for (parameter, most) in [("flow", 4_096), ("priority", 8)] {
        let condition = compare(builder, span, parameter, most);
        let message = builder.string(span, "the id of the flow is out of range");
        builder.clause(condition, Some(message));
    }
    let mut body = Vec::new();
    for step in 0..3 {
        body.push(step_of(builder, span + step));
    }
    let value = builder.identifier(span, "flow");
    body.push(builder.statement(span, "Return", &[value.into()]));
    let body = builder.list(&body);
    let (requires, ensures, result) = (clauses, (0, 0), false);
    builder.function(Function { name, span, parameters, result, body, requires, ensures });
    // The second call is out of range, the third is not all constant.
    for (flow, priority) in [(5, Some(3)), (5_000, Some(7)), (0, None)].into_iter().take(calls) {
        let flow = builder.integer(span, flow);
        let priority = match priority {
            Some(priority) => builder.integer(span, priority),
            None => builder.identifier(span, "priority_of_the_modem"),
        };
        let arguments = builder.list(&[flow, priority]);
        builder.call(name, span, arguments);
    }
}

fn compare(builder: &mut Builder, span: u32, name: &str, most: i64) -> u16 {
    let left = builder.identifier(span, name);
    let right = builder.integer(span, most);
    builder.binary(span, left, LESS, right)
}

/// A conditional that assigns a sum.
fn step_of(builder: &mut Builder, span: u32) -> u16 {
    let condition = compare(builder, span, "flow", 100);
    let left = builder.identifier(span, "flow");
    let right = builder.integer(span, 1);
    let sum = builder.binary(span, left, PLUS, right);
    let name = builder.text("flow");
    let assigned = builder.node(span, "Assign", &[name.into(), sum.into()]);
    let body = [builder.statement(span, "Expression", &[assigned.into()])];
    let body = builder.list(&body);
    let fields = [condition.into(), body, Value::Number(0)];
    let branch = builder.statement(span, "ConditionalBranch", &fields);
    builder.statement(span, "Conditional", &[branch.into(), 65_535.into()])
}

/// Parameters, arguments and clauses of a rule of the full image.
const WIDTH: usize = 16;

/// As many parameters, clauses, functions, calls and list entries as there
/// can be, in 65,535 bytes; no expression stands in another twice.
pub fn full() -> Image {
    let mut builder = Builder::new(1);
    for number in 0..LIMITS[5] {
        contract(&mut builder, number);
    }
    let mut names = Vec::new();
    for number in 0..LIMITS[7] {
        let name = builder.text(&format!("rule_{number:02}"));
        let (span, result, body) = (1, false, Value::Range(0, 0));
        let all = ((number * 3) as u16, WIDTH as u16);
        let (parameters, requires, ensures) = (all, all, all);
        builder.function(Function { name, span, parameters, result, body, requires, ensures });
        names.push(name);
    }
    let numbers: Vec<u16> = (0..64).map(|value| builder.integer(2, value * 3)).collect();
    let sums = numbers.windows(2).map(|pair| builder.binary(2, pair[0], PLUS, pair[1]));
    let sums: Vec<u16> = sums.collect();
    for number in 0..LIMITS[8] {
        let argument = |at: usize| match at % 2 {
            0 => numbers[(number + at) % numbers.len()],
            _ => sums[(number * 7 + at) % sums.len()],
        };
        let arguments = builder.list(&(0..WIDTH).map(argument).collect::<Vec<u16>>());
        builder.call(names[number % names.len()], number as u32, arguments);
    }
    let room = LENGTH_LIMIT - encode(&builder.image).len();
    for _ in 0..room / 5 {
        builder.statement(3, "Break", &[]);
    }
    builder.image
}

/// A parameter, at least 20, and a clause: a sum of it is less than a product
/// of the next.
fn contract(builder: &mut Builder, number: usize) {
    let name = builder.text(&format!("p{number:03}"));
    builder.parameter(name, Some((GE, Operand::Integer(20))));
    let left = builder.identifier(4, &format!("p{number:03}"));
    let right = builder.identifier(4, &format!("p{:03}", (number + 1) % LIMITS[5]));
    let [seven, two] = [7, 2].map(|value| builder.integer(4, value));
    let left = builder.binary(4, left, PLUS, seven);
    let right = builder.binary(4, right, STAR, two);
    let condition = builder.binary(4, left, LESS, right);
    let message = builder.string(4, &format!("the rate {number:03} is too low"));
    builder.clause(condition, Some(message));
}

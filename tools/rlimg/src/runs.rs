//! Deterministic generation of functions to be run, and of values for their
//! parameters. Most expressions have the sort that is wanted where they stand,
//! so that runs go on; now and then something is wrong.

mod calls;
mod contracts;
mod expressions;
pub mod operands;
pub mod texts;
pub mod words;

pub use calls::broken;

use crate::builder::{Builder, Function, Operand};
use crate::code::Code;
use crate::image::{Image, Value, NONE};
use crate::rng::Rng;
use crate::run::{Call, BINDINGS, BUDGET, VALUES};
use crate::schema::{self, Row, Section};
use crate::small;
use expressions::Sort;

const NAMES: [&str; 9] = ["a", "b", "ab", "", "\u{e9}", "flow", "flo", "A", "ret"];
/// One for each loop around; nothing else assigns to them.
const COUNTERS: [&str; 4] = ["i", "i1", "i2", "i3"];
/// How deep statements stand in one another.
const DEPTH: usize = COUNTERS.len() - 1;

const PLUS: u16 = 1;
const LESS: u16 = 8;
const GREATER: u16 = 10;

/// An accepted image, and a call of one of its functions.
#[derive(Debug, Clone)]
pub struct Run {
    pub image: Image,
    pub call: Call,
}

/// A run over functions of up to about so many statements a list.
pub fn any(rng: &mut Rng, size: usize) -> Run {
    run_of(rng, size, Generator::function)
}

/// The same with contracts that mostly hold, and with more returns.
pub fn contracted(rng: &mut Rng, size: usize) -> Run {
    run_of(rng, size, Generator::contracted)
}

fn run_of<'r>(rng: &'r mut Rng, size: usize, function: fn(&mut Generator<'r>) -> Vec<u64>) -> Run {
    let mut builder = Builder::new(rng.number() as u32);
    if rng.one_in(2) {
        builder = builder.interning();
    }
    let code = Code::new(builder);
    let mut generator = Generator {
        rng,
        code,
        size,
        bound: Vec::new(),
        counters: 0,
        loops: 0,
        sizes: Vec::new(),
        known: Vec::new(),
        given: None,
    };
    let functions = generator.rng.pick(&[1, 1, 1, 2]);
    let words: Vec<Vec<u64>> = (0..functions).map(|_| function(&mut generator)).collect();
    let function = generator.rng.below(functions);
    let image = generator.code.builder.image;
    let words = words[function].clone();
    let (work, function, budget) = (8_192, function as u32, BUDGET);
    Run { image, call: Call { work, function, words, budget } }
}

struct Generator<'r> {
    rng: &'r mut Rng,
    code: Code,
    size: usize,
    /// The names that are bound here, and what sort of value they have.
    bound: Vec<(&'static str, Sort)>,
    /// How many counters are bound here.
    counters: usize,
    /// How many loops are around.
    loops: usize,
    /// How many nodes the tree of each expression has.
    sizes: Vec<usize>,
    /// Expressions of this function, with their sorts.
    known: Vec<(u16, Sort)>,
    /// What sort of value a function with a contract mostly gives.
    given: Option<Sort>,
}

impl Generator<'_> {
    /// A function; gives the words of values for it.
    fn function(&mut self) -> Vec<u64> {
        let most = if self.rng.one_in(10) { VALUES + 2 } else { 5 };
        self.bound.clear();
        self.known.clear();
        let first = self.code.builder.image.counts()[5] as u16;
        let mut words = Vec::new();
        for _ in 0..self.rng.below(most) {
            let (name, sort) = (self.rng.pick(&NAMES), self.any_sort());
            self.parameter(name);
            self.bound.push((name, sort));
            words.extend(self.words(sort));
        }
        let parameters = (first, self.bound.len() as u16);
        let requires = self.clauses();
        let body = match self.rng.below(40) {
            0 => Vec::new(),
            1 => self.many_bindings(),
            _ => self.body(),
        };
        let name = self.code.builder.text("f");
        let body = self.code.builder.list(&body);
        let (span, result, ensures) = (9, self.rng.one_in(2), requires);
        let function = Function { name, span, parameters, result, body, requires, ensures };
        self.code.builder.function(function);
        words
    }

    /// A plain run does not look at refinements.
    fn parameter(&mut self, name: &str) {
        let name = self.code.builder.text(name);
        let refined = self.rng.one_in(8).then_some((1, Operand::Integer(i64::MAX)));
        self.code.builder.parameter(name, refined);
    }

    /// Nor does it look at clauses.
    fn clauses(&mut self) -> (u16, u16) {
        let first = self.code.builder.image.counts()[6] as u16;
        if !self.rng.one_in(8) {
            return (first, 0);
        }
        let never = self.code.bool(false);
        self.code.builder.clause(never, None);
        (first, 1)
    }

    fn body(&mut self) -> Vec<u16> {
        let mut body = self.statements(DEPTH);
        let sort = self.any_sort();
        match self.rng.below(4) {
            0 => (),
            1 => {
                let node = self.last(sort);
                body.push(self.code.give(node));
            }
            _ => {
                let node = self.last(sort);
                body.push(self.code.bare(node));
            }
        }
        body
    }

    /// The expression at the end of a body, sometimes a small constant.
    fn last(&mut self, sort: Sort) -> u16 {
        match self.rng.one_in(8) {
            true => self.small(),
            false => self.expression(sort, 3),
        }
    }

    /// As many declarations as there can be bindings, or nearly.
    fn many_bindings(&mut self) -> Vec<u16> {
        let room = BINDINGS.saturating_sub(self.bound.len());
        let count = room + self.rng.pick(&[0, 0, 1, 1, 2, 9]) - self.rng.pick(&[0, 0, 1, 3]);
        let value = self.expression(Sort::Int, 1);
        let names: Vec<&str> = (0..count).map(|_| self.rng.pick(&NAMES)).collect();
        let mut body: Vec<u16> = names.iter().map(|name| self.code.declare(name, value)).collect();
        if self.rng.one_in(2) {
            let inner = body.split_off(count - 1 - self.rng.below(count / 2));
            let branch = self.code.branch(None, &inner);
            body.push(self.code.conditional(branch, None));
            body.extend(inner.first());
        }
        let name = self.rng.pick(&NAMES);
        let name = self.code.name(name);
        body.push(self.code.bare(name));
        body
    }

    /// Statements in a scope of their own.
    fn statements(&mut self, depth: usize) -> Vec<u16> {
        let (bound, counters) = (self.bound.len(), self.counters);
        let count = self.rng.below(self.size + 1);
        let mut list = Vec::new();
        for _ in 0..count {
            self.statement(depth, &mut list);
        }
        self.bound.truncate(bound);
        self.counters = counters;
        list
    }

    fn statement(&mut self, depth: usize, list: &mut Vec<u16>) {
        if self.given.is_some() && self.rng.one_in(5) {
            let made =
                if depth > 0 && self.rng.one_in(5) { self.passed(depth) } else { self.ending() };
            return list.push(made);
        }
        let made = match self.rng.below(26) {
            0..=5 => self.declare(),
            6..=10 => self.set(),
            11 | 12 => self.bare(),
            13..=16 if depth > 0 => self.conditional(depth),
            17..=20 if depth > 0 => return self.counted(depth, list),
            21 | 22 if self.loops > 0 => self.jump(),
            23 => self.ending(),
            24 if self.rng.one_in(3) => self.odd_statement(),
            25 => self.shared_statement(),
            _ => self.set(),
        };
        list.push(made);
    }

    fn declare(&mut self) -> u16 {
        let (sort, name) = (self.any_sort(), self.rng.pick(&NAMES));
        let value = self.expression(sort, 2);
        self.bound.push((name, sort));
        let name = self.code.builder.text(name);
        // The type, and what may stand behind the value, are not read.
        let unread = [0; 2].map(|_| Value::Number(self.rng.pick(&[0, 0, 5, u64::from(u32::MAX)])));
        let fields = [name.into(), unread[0], value.into(), unread[1]];
        self.code.statement("VariableDeclaration", &fields)
    }

    fn set(&mut self) -> u16 {
        match self.bound.len() {
            0 => self.bare(),
            count => {
                let (name, sort) = self.bound[self.rng.below(count)];
                let value = self.expression(sort, 2);
                self.code.set(name, value)
            }
        }
    }

    fn bare(&mut self) -> u16 {
        let sort = self.any_sort();
        let node = self.expression(sort, 2);
        self.code.bare(node)
    }

    fn branch(&mut self, depth: usize, unconditional: usize) -> u16 {
        let condition = match self.rng.one_in(unconditional) {
            true => NONE,
            false => self.truth(),
        };
        let body = self.statements(depth - 1);
        let body = self.code.builder.list(&body);
        let scope = Value::Number(self.rng.below(2) as u64);
        self.code.statement("ConditionalBranch", &[condition.into(), body, scope])
    }

    fn conditional(&mut self, depth: usize) -> u16 {
        let branch = self.branch(depth, 12);
        let other = match self.rng.below(4) {
            0 => Some(self.branch(depth, 2)),
            1 => Some(self.conditional(depth)),
            _ => None,
        };
        self.code.conditional(branch, other)
    }

    /// A loop of a few turns, and before it the declaration of its counter.
    fn counted(&mut self, depth: usize, list: &mut Vec<u16>) {
        let (counter, turns) = (COUNTERS[DEPTH - depth], self.rng.below(5) as i64);
        let start = self.code.integer(0);
        list.push(self.code.declare(counter, start));
        self.counters = DEPTH - depth + 1;
        let next = self.code.with(counter, PLUS, 1);
        let mut body = vec![self.code.set(counter, next)];
        let endless = self.rng.one_in(2);
        if endless {
            let over = self.code.with(counter, GREATER, turns);
            let out = self.code.statement("Break", &[]);
            body.push(self.code.when(over, &[out]));
        }
        self.loops += 1;
        body.extend(self.statements(depth - 1));
        self.loops -= 1;
        if self.rng.one_in(12) {
            body.rotate_left(1);
        }
        if endless {
            return list.push(self.code.endless(&body));
        }
        let condition = match self.rng.below(12) {
            0 => self.truth(),
            1 => self.small(),
            2..=6 => self.shifted(counter, turns),
            _ => self.code.with(counter, LESS, turns),
        };
        list.push(self.code.while_loop(condition, &body));
    }

    /// Whether the counter is below the turns, a small constant added to both.
    fn shifted(&mut self, counter: &str, turns: i64) -> u16 {
        let small = small::any(self.rng);
        let (left, right) = (self.code.name(counter), self.code.small(small));
        let sum = self.code.binary(left, PLUS, right);
        let most = self.code.integer(small.1 + turns);
        self.code.binary(sum, LESS, most)
    }

    /// Mostly under a condition.
    fn guarded(&mut self, statement: u16) -> u16 {
        if self.rng.one_in(5) {
            return statement;
        }
        let condition = self.truth();
        self.code.when(condition, &[statement])
    }

    fn jump(&mut self) -> u16 {
        let name = self.rng.pick(&["Break", "Continue"]);
        let jump = self.code.statement(name, &[]);
        self.guarded(jump)
    }

    fn ending(&mut self) -> u16 {
        let ending = match self.rng.one_in(3) {
            true => self.code.statement("ReturnAlone", &[]),
            false => {
                let sort = self.given_sort();
                let node = self.expression(sort, 2);
                self.code.give(node)
            }
        };
        self.guarded(ending)
    }

    /// One that is not taken here.
    fn odd_statement(&mut self) -> u16 {
        let body = self.bare();
        let names = ["Break", "Continue", "For", "ForRange", "ForEach", "Match", "Other"];
        let node = self.expression(Sort::Bool, 1);
        match self.rng.below(8) {
            7 => self.code.branch(Some(node), &[body]),
            which => {
                let rows: Vec<&Row> = schema::rows(Section::Statement).collect();
                let row = rows.into_iter().find(|row| row.name == names[which]);
                let fields = self.fields(row.expect("a name of the section"), node, body);
                self.code.statement(names[which], &fields)
            }
        }
    }

    /// One without statements inside that is there already.
    fn shared_statement(&mut self) -> u16 {
        let statements = self.code.builder.image.of(Section::Statement);
        let simple = |kind: u8| kind < 68 || kind == 77 || kind == 78;
        let simple: Vec<usize> =
            (0..statements.len()).filter(|at| simple(statements[*at].kind)).collect();
        match simple.len() {
            0 => self.bare(),
            _ => self.rng.pick(&simple) as u16,
        }
    }
}

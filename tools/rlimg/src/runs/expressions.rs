//! Expressions of a wanted sort, and odd ones.

use super::{Generator, COUNTERS, NAMES};
use crate::image::Value;
use crate::rules::{self, Literal};
use crate::schema::{self, Row, Section, Sort as FieldSort};
use crate::small;

/// A tree of more nodes is not used twice.
const SHARED: usize = 20;
const MINUS: u16 = 2;
const BANG: u16 = 5;
const COMPARE: u16 = 6;
/// The kinds that mean something in a run.
const TAKEN: [u8; 21] =
    [16, 17, 18, 19, 20, 21, 22, 23, 24, 25, 26, 27, 28, 30, 32, 33, 34, 39, 41, 49, 50];

#[derive(Debug, Clone, Copy, PartialEq, Eq)]
pub(super) enum Sort {
    Int,
    Float,
    Str,
    Bool,
    Null,
    /// An Ok or Err.
    Wrapped,
}

const SORTS: [Sort; 10] = [
    Sort::Int,
    Sort::Int,
    Sort::Int,
    Sort::Float,
    Sort::Str,
    Sort::Bool,
    Sort::Bool,
    Sort::Null,
    Sort::Wrapped,
    Sort::Wrapped,
];

impl Generator<'_> {
    pub(super) fn any_sort(&mut self) -> Sort {
        self.rng.pick(&SORTS)
    }

    fn plain_sort(&mut self) -> Sort {
        self.rng.pick(&SORTS[..8])
    }

    /// A value of the sort, as words.
    pub(super) fn words(&mut self, sort: Sort) -> [u64; 2] {
        let any = |generator: &mut Self, sort| Literal::any(generator.rng, sort);
        match sort {
            Sort::Int if self.rng.one_in(2) => [1, self.rng.below(5) as u64],
            Sort::Wrapped => {
                let plain = self.plain_sort();
                let [sort, payload] = self.words(plain);
                [sort + self.rng.pick(&[8, 8, 16]), payload]
            }
            Sort::Null => [0, 0],
            _ => match any(self, sort as usize) {
                Literal::Int(value) => [1, value as u64],
                Literal::Float(value) => [2, value.to_bits()],
                Literal::Str(text) => [3, u64::from(self.code.builder.text(text))],
                Literal::Bool(value) => [4, u64::from(value)],
            },
        }
    }

    pub(super) fn expression(&mut self, sort: Sort, depth: usize) -> u16 {
        let node = match self.rng.below(40) {
            0 if self.rng.one_in(4) => self.odd(),
            1 | 2 => self.shared(sort),
            3 | 4 if depth > 0 => {
                let inner = self.expression(sort, depth - 1);
                self.code.over("Grouping", inner)
            }
            5 | 6 if depth > 0 => self.assign(sort, depth - 1),
            7..=16 => self.variable(sort),
            17..=33 if depth > 0 => self.compound(sort, depth - 1),
            34..=36 if sort == Sort::Int => self.small(),
            _ => self.leaf(sort),
        };
        self.known.push((node, sort));
        node
    }

    /// The names bound to such values.
    fn names(&self, sort: Sort) -> Vec<&'static str> {
        self.bound.iter().filter(|bound| bound.1 == sort).map(|bound| bound.0).collect()
    }

    fn variable(&mut self, sort: Sort) -> u16 {
        let mut names = self.names(sort);
        if sort == Sort::Int {
            names.extend(&COUNTERS[..self.counters]);
        }
        match names.len() {
            0 => self.leaf(sort),
            _ => {
                let name = self.rng.pick(&names);
                self.code.name(name)
            }
        }
    }

    fn assign(&mut self, sort: Sort, depth: usize) -> u16 {
        let value = self.expression(sort, depth);
        let names = self.names(sort);
        match names.len() {
            0 => value,
            _ => {
                let name = self.rng.pick(&names);
                self.code.assign(name, value)
            }
        }
    }

    /// An expression of the sort that is there already, where a small one is
    /// found.
    fn shared(&mut self, sort: Sort) -> u16 {
        self.count_nodes();
        if !self.known.is_empty() {
            let (node, known) = self.known[self.rng.below(self.known.len())];
            if known == sort && self.sizes[usize::from(node)] <= SHARED {
                return node;
            }
        }
        self.leaf(sort)
    }

    /// Brings the sizes up to date.
    fn count_nodes(&mut self) {
        let image = &self.code.builder.image;
        for record in &image.of(Section::Expression)[self.sizes.len()..] {
            let row = schema::of_kind(record.kind).expect("a kind of the format");
            let mut size = 1;
            for (sort, value) in row.sorts.iter().zip(&record.values) {
                match *value {
                    Value::Number(node) if *sort == FieldSort::Node => {
                        size += self.sizes[node as usize];
                    }
                    Value::Range(first, count) if *sort == FieldSort::Nodes => {
                        let list = image.list(first, count).unwrap_or(&[]);
                        size +=
                            list.iter().map(|node| self.sizes[usize::from(*node)]).sum::<usize>();
                    }
                    _ => (),
                }
            }
            self.sizes.push(size);
        }
    }

    fn leaf(&mut self, sort: Sort) -> u16 {
        match sort {
            Sort::Null => self.code.null(),
            Sort::Wrapped => {
                let plain = self.plain_sort();
                let inner = self.leaf(plain);
                self.wrapped(inner)
            }
            Sort::Int if self.rng.one_in(2) => {
                let near = self.rng.below(8) as i64;
                self.code.integer(near)
            }
            Sort::Int if self.rng.one_in(2) => self.small(),
            _ => {
                let literal = Literal::any(self.rng, sort as usize);
                self.literal(literal)
            }
        }
    }

    /// A small constant at a limit.
    pub(super) fn small(&mut self) -> u16 {
        let small = small::any(self.rng);
        self.code.small(small)
    }

    /// A truth value, rarely a small constant, which is none.
    pub(super) fn truth(&mut self) -> u16 {
        match self.rng.one_in(40) {
            true => self.small(),
            false => self.expression(Sort::Bool, 2),
        }
    }

    fn literal(&mut self, literal: Literal) -> u16 {
        let (name, bits) = match literal {
            Literal::Int(value) => rules::integer(self.rng, value),
            Literal::Float(value) => rules::float(self.rng, value),
            Literal::Str(text) => return self.code.string(text),
            Literal::Bool(value) => return self.code.bool(value),
        };
        self.code.node(name, &[Value::Number(bits)])
    }

    fn compound(&mut self, sort: Sort, depth: usize) -> u16 {
        match (sort, self.rng.below(8)) {
            (Sort::Bool, 0) => self.of_result("is_err", depth),
            (Sort::Bool, 1) => {
                let inner = self.expression(Sort::Bool, depth);
                self.code.unary(BANG, inner)
            }
            (Sort::Bool, _) => self.comparison(depth),
            (Sort::Wrapped, _) => {
                let plain = self.plain_sort();
                let inner = self.expression(plain, depth);
                self.wrapped(inner)
            }
            (_, 0) => {
                let inner = self.expression(sort, depth);
                let wrapped = self.code.over("OkLiteral", inner);
                self.code.result("result_unwrap", wrapped)
            }
            (_, 1) => self.of_result("result_unwrap", depth),
            (Sort::Int | Sort::Float, 2) => {
                let inner = self.expression(sort, depth);
                self.code.unary(MINUS, inner)
            }
            (Sort::Int | Sort::Float, _) => self.arithmetic(sort, depth),
            _ => self.leaf(sort),
        }
    }

    fn wrapped(&mut self, inner: u16) -> u16 {
        let name = self.rng.pick(&["OkLiteral", "OkLiteral", "ErrLiteral"]);
        self.code.over(name, inner)
    }

    fn of_result(&mut self, name: &str, depth: usize) -> u16 {
        let inner = match self.rng.one_in(20) {
            true => self.small(),
            false => self.expression(Sort::Wrapped, depth),
        };
        self.code.result(name, inner)
    }

    fn arithmetic(&mut self, sort: Sort, depth: usize) -> u16 {
        let mixed = [(sort, sort), (Sort::Int, sort), (sort, Sort::Int)];
        let (left, right) = self.rng.pick(&mixed);
        let (left, right) = (self.expression(left, depth), self.expression(right, depth));
        let operator = self.rng.pick(&[1, 1, 1, 2, 2, 3, 4]);
        self.code.binary(left, operator, right)
    }

    fn comparison(&mut self, depth: usize) -> u16 {
        let pairs = [
            (Sort::Int, Sort::Int),
            (Sort::Int, Sort::Int),
            (Sort::Int, Sort::Float),
            (Sort::Float, Sort::Float),
            (Sort::Float, Sort::Int),
            (Sort::Str, Sort::Str),
            (Sort::Str, Sort::Str),
            (Sort::Bool, Sort::Bool),
        ];
        let (left, right) = self.rng.pick(&pairs);
        let operators = if left == Sort::Bool { 2 } else { 6 };
        let (left, right) = (self.expression(left, depth), self.expression(right, depth));
        let operator = COMPARE + self.rng.below(operators) as u16;
        self.code.binary(left, operator, right)
    }

    /// Something that has no value here, or probably none.
    fn odd(&mut self) -> u16 {
        let (sort, other) = (self.any_sort(), self.any_sort());
        let inner = self.expression(sort, 1);
        match self.rng.below(9) {
            0 => {
                let name = self.rng.pick(&["zz", "i9", NAMES[0], NAMES[3]]);
                self.code.name(name)
            }
            1 => self.code.assign("zz", inner),
            2 => self.not_taken(inner),
            3 => {
                let inner = self.expression(Sort::Wrapped, 1);
                self.wrong_call(inner)
            }
            4 => self.code.node("UInt", &[Value::Number(1 << 63)]),
            5 => {
                let right = self.rng.pick(&[sort, other]);
                let right = self.expression(right, 1);
                let any = 1 + self.rng.below(63) as u16;
                let operator = self.rng.pick(&[any, any, BANG, 12, 63]);
                self.code.binary(inner, operator, right)
            }
            6 => {
                let operator = self.rng.pick(&[MINUS, BANG, 1, 12, 63]);
                self.code.unary(operator, inner)
            }
            7 => {
                let name = self.rng.pick(&["OkLiteral", "ErrLiteral"]);
                self.code.over(name, inner)
            }
            _ => {
                let name = self.rng.pick(&["is_err", "result_unwrap"]);
                self.code.result(name, inner)
            }
        }
    }

    /// A call that is nearly one of those that are taken.
    fn wrong_call(&mut self, inner: u16) -> u16 {
        let paths: [&[&str]; 6] = [
            &["std", "res", "is_ok"],
            &["std", "res"],
            &["res", "is_err"],
            &["std", "res", "is_err", ""],
            &["std", "Res", "is_err"],
            &[],
        ];
        let (mut path, mut count) = (self.rng.pick(&paths), 1);
        if self.rng.one_in(2) {
            let names: [&[&str]; 2] = [&["std", "res", "is_err"], &["std", "res", "result_unwrap"]];
            (path, count) = (self.rng.pick(&names), self.rng.pick(&[0, 2]));
        }
        self.code.call(path, &[inner, inner][..count])
    }

    /// An expression of a kind that means nothing in a run.
    fn not_taken(&mut self, inner: u16) -> u16 {
        let rows = schema::rows(Section::Expression).filter(|row| !TAKEN.contains(&row.kind));
        let rows: Vec<&Row> = rows.collect();
        let row = self.rng.pick(&rows);
        let fields = self.fields(row, inner, 0);
        self.code.node(row.name, &fields)
    }

    /// The fields of a record that is not taken, over an expression and a
    /// statement; neither is to be run.
    pub(super) fn fields(&mut self, row: &Row, node: u16, statement: u16) -> Vec<Value> {
        let text = self.code.builder.text(NAMES[0]);
        let list = |generator: &mut Self, entries: &[u16]| generator.code.builder.list(entries);
        let sorts = row.sorts.iter().skip(1);
        let field = |sort: &FieldSort| match sort {
            FieldSort::Node | FieldSort::NodeOrNone => node.into(),
            FieldSort::Text => text.into(),
            FieldSort::Inner => statement.into(),
            FieldSort::Nodes | FieldSort::NodePairs => list(self, &[node, node]),
            FieldSort::Texts => list(self, &[text]),
            FieldSort::Fields => list(self, &[text, node]),
            FieldSort::Body => list(self, &[statement]),
            FieldSort::Arms => {
                let body = list(self, &[statement]);
                let arm = self.code.statement("MatchArm", &[node.into(), body]);
                list(self, &[arm])
            }
            _ => Value::Number(1),
        };
        sorts.map(field).collect()
    }
}

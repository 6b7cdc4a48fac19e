//! The listed functions have each small constant, at each of its limits, on
//! both sides of each operator, beside each sort of value and each kind of
//! whole number, and in each other place of a body.

use rlimg::decode::decode;
use rlimg::encode::encode;
use rlimg::image::{Image, Record};
use rlimg::runs::operands;
use rlimg::schema::Section;
use rlimg::small::{self, Small};
use std::collections::HashSet;

const OPERATORS: [u64; 13] = [1, 2, 3, 4, 5, 6, 7, 8, 9, 10, 11, 12, 63];
const BESIDE: [&str; 14] = [
    "Null",
    "Integer",
    "SInt",
    "UInt",
    "SUInt",
    "Byte",
    "SByte",
    "BByte",
    "BSByte",
    "String",
    "Bool",
    "Float",
    "NaN",
    "OkLiteral",
];
const ALONE: [&str; 11] = [
    "returned",
    "last",
    "last, grouped",
    "branch",
    "while",
    "declared",
    "assigned",
    "is_err",
    "result_unwrap",
    "OkLiteral",
    "ErrLiteral",
];

/// What was seen of the functions.
#[derive(Default)]
struct Seen {
    /// Operator, side, constant and what stands beside it.
    pairs: HashSet<(u64, &'static str, Small, &'static str)>,
    unary: HashSet<(u64, Small)>,
    alone: HashSet<(&'static str, Small)>,
}

impl Seen {
    fn see(&mut self, place: &'static str, record: &Record) {
        self.alone.extend(small::of(record).map(|small| (place, small)));
    }

    /// A function's statements.
    fn see_body(&mut self, image: &Image, function: &Record) {
        let (first, count) = function.range(4);
        let body = image.list(first, count).expect("a list of the image");
        for (position, number) in body.iter().enumerate() {
            let statement = &image.of(Section::Statement)[usize::from(*number)];
            let of = |at| image.node(statement.number(at));
            match statement.kind {
                64 => self.see("declared", of(3)),
                65 if position + 1 == body.len() => self.see_last(image, of(1)),
                65 | 66 => self.see_given(image, of(1)),
                68 => {
                    let branch = &image.of(Section::Statement)[statement.number(1) as usize];
                    self.see("branch", image.node(branch.number(1)));
                }
                70 => self.see("while", of(1)),
                kind => panic!("a statement of kind {kind}"),
            }
        }
    }

    fn see_last(&mut self, image: &Image, record: &Record) {
        match record.kind {
            34 => self.see("last, grouped", image.node(record.number(1))),
            _ => self.see("last", record),
        }
    }

    /// What is returned, or evaluated.
    fn see_given(&mut self, image: &Image, record: &Record) {
        let of = |at| image.node(record.number(at));
        match record.kind {
            32 => self.see_pair(record.number(2), of(1), of(3)),
            33 => {
                let small = small::of(of(2)).expect("a small constant");
                self.unary.insert((record.number(1), small));
            }
            39 => self.see("assigned", of(2)),
            41 => self.see_call(image, record),
            49 | 50 => self.see(small::beside(record), of(1)),
            _ => self.see("returned", record),
        }
    }

    fn see_pair(&mut self, operator: u64, left: &Record, right: &Record) {
        for (side, constant, other) in [("left", left, right), ("right", right, left)] {
            if let Some(small) = small::of(constant) {
                self.pairs.insert((operator, side, small, small::beside(other)));
            }
        }
    }

    fn see_call(&mut self, image: &Image, record: &Record) {
        let [path, arguments] = [1, 2].map(|at| {
            let (first, count) = record.range(at);
            image.list(first, count).expect("a list of the image")
        });
        let function = match image.text_of(path[2]) {
            Some(b"is_err") => "is_err",
            Some(b"result_unwrap") => "result_unwrap",
            other => panic!("a call of {other:?}"),
        };
        self.see(function, image.node(u64::from(arguments[0])));
    }
}

#[test]
fn in_each_place() {
    let mut seen = Seen::default();
    for image in operands::images() {
        assert_eq!(decode(&encode(&image)).as_ref(), Ok(&image));
        for function in image.of(Section::Function) {
            seen.see_body(&image, function);
        }
    }
    for small in small::all() {
        for operator in OPERATORS {
            for (side, other) in BESIDE.iter().flat_map(|other| [("left", other), ("right", other)])
            {
                let pair = (operator, side, small, *other);
                assert!(seen.pairs.contains(&pair), "not listed: {pair:?}");
            }
            assert!(seen.unary.contains(&(operator, small)), "{operator} on {small:?}");
        }
        for place in ALONE {
            assert!(seen.alone.contains(&(place, small)), "{place}: {small:?}");
        }
    }
}

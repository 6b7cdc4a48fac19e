//! Generated images have each small constant, at each of its limits, as an
//! argument, in contracts and in each place of a body where a value is wanted;
//! messages have each kind.

use rlimg::image::Image;
use rlimg::rng::Rng;
use rlimg::schema::Section;
use rlimg::small::{self, Small};
use rlimg::{rules, runs};
use std::collections::{BTreeSet, HashMap};

/// Each kind with the limits that it must have.
const TABLE: [(&str, &[i64]); 5] = [
    (
        "SUInt",
        &[0, 127, 128, 255, 32_767, 32_768, 65_535, 2_147_483_647, 2_147_483_648, 4_294_967_295],
    ),
    ("Byte", &[0, 127, 128, 255]),
    ("SByte", &[0, 127, -128, -1]),
    ("BByte", &[0, 127, 128, 255, 32_767, 32_768, 65_535]),
    ("BSByte", &[0, 127, 128, 255, -128, 32_767, -32_768, -1]),
];

/// Each must have been seen so often in a place.
const ENOUGH: usize = 4;

/// How often each small constant was seen in each place.
#[derive(Default)]
struct Seen(HashMap<(&'static str, Small), usize>);

impl Seen {
    fn see(&mut self, image: &Image, place: &'static str, node: u64) {
        // No record has the number that means none.
        let record = image.of(Section::Expression).get(node as usize);
        if let Some(small) = record.and_then(small::of) {
            *self.0.entry((place, small)).or_default() += 1;
        }
    }

    /// Every operand in an expression.
    fn see_operands(&mut self, image: &Image, place: &'static str, node: u64) {
        let Some(record) = image.of(Section::Expression).get(node as usize) else { return };
        let positions: &[usize] = match record.kind {
            32 => &[1, 3],
            33 => &[2],
            34 => &[1],
            _ => &[],
        };
        for position in positions {
            self.see(image, place, record.number(*position));
            self.see_operands(image, place, record.number(*position));
        }
    }

    fn see_clauses(&mut self, image: &Image) {
        for function in image.of(Section::Function) {
            let places = [["requires", "requires, operand"], ["ensures", "ensures, operand"]];
            for (position, [itself, operand]) in (5..).zip(places) {
                let clauses = image.part(Section::Clause, function.range(position));
                for clause in clauses.expect("a range of the image") {
                    self.see(image, itself, clause.number(0));
                    self.see_operands(image, operand, clause.number(0));
                    self.see(image, "message", clause.number(1));
                }
            }
        }
    }

    fn see_arguments(&mut self, image: &Image, section: Section, kind: u8) {
        for call in image.of(section).iter().filter(|record| record.kind == kind) {
            let (first, count) = call.range(2);
            for argument in image.list(first, count).expect("a list of the image") {
                self.see(image, "argument", u64::from(*argument));
            }
        }
    }

    fn see_body(&mut self, image: &Image) {
        for record in image.records.iter().flatten() {
            let places: &[(&str, usize)] = match record.kind {
                32 => &[("left", 1), ("right", 3)],
                33 => &[("unary", 2)],
                34 => &[("grouping", 1)],
                39 => &[("assigned", 2)],
                49 => &[("Ok", 1)],
                50 => &[("Err", 1)],
                64 => &[("declared", 3)],
                66 => &[("returned", 1)],
                69 => &[("branch", 1)],
                70 => &[("while", 1)],
                _ => &[],
            };
            for (place, position) in places {
                self.see(image, place, record.number(*position));
            }
            if let 69 | 70 = record.kind {
                let place = if record.kind == 69 { "branch, operand" } else { "while, operand" };
                self.see_operands(image, place, record.number(1));
            }
        }
        self.see_arguments(image, Section::Expression, 41);
        self.see_last(image);
    }

    /// The bare last expression of a function.
    fn see_last(&mut self, image: &Image) {
        for function in image.of(Section::Function) {
            let (first, count) = function.range(4);
            let body = image.list(first, count).expect("a list of the image");
            let Some(last) = body.last() else { continue };
            let last = &image.of(Section::Statement)[usize::from(*last)];
            if last.kind == 65 {
                self.see(image, "last", last.number(1));
            }
        }
    }

    fn count(&self, place: &'static str, small: Small) -> usize {
        self.0.get(&(place, small)).copied().unwrap_or(0)
    }

    /// Fails where one of the places has too few of a constant.
    fn has_all(&self, places: &[&'static str]) {
        for place in places {
            let mut rare = small::all();
            rare.retain(|small| self.count(place, *small) < ENOUGH);
            assert!(rare.is_empty(), "{place}: hardly generated: {rare:?}");
        }
    }

    /// Messages have each kind, though not each limit.
    fn has_messages(&self) {
        for (kind, _) in &TABLE {
            let of_kind = |(place, (name, _)): &(&str, Small)| *place == "message" && name == kind;
            assert!(self.0.keys().any(of_kind), "no message is a {kind}");
        }
    }
}

const CLAUSES: [&str; 4] = ["requires", "requires, operand", "ensures", "ensures, operand"];
const BODY: [&str; 15] = [
    "argument",
    "left",
    "right",
    "unary",
    "grouping",
    "assigned",
    "Ok",
    "Err",
    "declared",
    "returned",
    "last",
    "branch",
    "branch, operand",
    "while",
    "while, operand",
];

#[test]
fn the_limits_are_those_of_the_table() {
    let rows = TABLE.iter().flat_map(|(kind, limits)| limits.iter().map(|limit| (*kind, *limit)));
    let [listed, table]: [BTreeSet<Small>; 2] =
        [small::all().into_iter().collect(), rows.collect()];
    assert_eq!(listed, table);
}

#[test]
fn in_calls_and_conditions() {
    let (mut rng, mut seen) = (Rng::new(1), Seen::default());
    for size in (0..6_000).map(|number| [1, 2, 4, 12][number % 4]) {
        let image = rules::image(&mut rng, size);
        seen.see_arguments(&image, Section::Call, 83);
        seen.see_clauses(&image);
    }
    seen.has_all(&["argument"]);
    seen.has_all(&CLAUSES);
    seen.has_messages();
}

#[test]
fn in_functions_to_be_run() {
    let (mut rng, mut seen) = (Rng::new(2), Seen::default());
    for size in (0..20_000).map(|number| [1, 2, 4, 6][number % 4]) {
        seen.see_body(&runs::any(&mut rng, size).image);
    }
    seen.has_all(&BODY);
}

#[test]
fn in_functions_to_be_lowered() {
    let (mut rng, mut seen) = (Rng::new(3), Seen::default());
    for size in (0..30_000).map(|number| [1, 2, 4, 6][number % 4]) {
        let image = runs::contracted(&mut rng, size).image;
        seen.see_clauses(&image);
        seen.see_body(&image);
    }
    seen.has_all(&CLAUSES);
    seen.has_all(&BODY);
    seen.has_messages();
}

//! The lists have each small constant, at each of its limits, on both sides of
//! each operator, beside each sort of literal and each kind of whole number,
//! and as the argument of each refinement by each limit.

use oracle::{pairs, picked};
use rlimg::image::{Image, Record};
use rlimg::schema::Section;
use rlimg::small::{self, KINDS, Small};
use std::collections::HashSet;

/// Those that mean something in a binary, Bang, and two of those that do not.
const OPERATORS: [u64; 13] = [1, 2, 3, 4, 5, 6, 7, 8, 9, 10, 11, 12, 63];
const BESIDE: [&str; 13] = [
    "Null", "Integer", "SInt", "UInt", "SUInt", "Byte", "SByte", "BByte", "BSByte", "String",
    "Bool", "Float", "NaN",
];

#[test]
fn beside_every_sort() {
    let (mut pairs, mut alone) = (HashSet::new(), HashSet::new());
    for image in pairs::images() {
        for record in image.of(Section::Expression) {
            if record.kind == 32 {
                let [left, right] = [1, 3].map(|at| image.node(record.number(at)));
                let seen = |side, small: Small, other| {
                    (record.number(2), side, small, small::beside(other))
                };
                pairs.extend(small::of(left).map(|small| seen("left", small, right)));
                pairs.extend(small::of(right).map(|small| seen("right", small, left)));
            } else if record.kind == 33 {
                let small = small::of(image.node(record.number(2)));
                alone.extend(small.map(|small| (record.number(1), small)));
            }
        }
    }
    for small in small::all() {
        for operator in OPERATORS {
            for (other, side) in BESIDE.iter().flat_map(|other| [(other, "left"), (other, "right")])
            {
                assert!(pairs.contains(&(operator, side, small, *other)), "{small:?} {other}");
            }
        }
        assert!([2, 5].iter().all(|operator| alone.contains(&(*operator, small))), "{small:?}");
    }
    for (operator, (kind, _)) in
        (1..64).flat_map(|operator| KINDS.iter().map(move |k| (operator, k)))
    {
        assert!(alone.contains(&(operator, (*kind, 5))), "operator {operator} on {kind}");
    }
}

/// The calls of an image with each function of that name: its parameter's
/// refinement by a whole number, that number, and the small constant for it.
fn refined(image: &Image) -> Vec<(u64, i64, Small)> {
    let mut all = Vec::new();
    for call in image.of(Section::Call) {
        let (first, count) = call.range(2);
        let arguments = image.list(first, count).expect("a list of the image");
        let called = |function: &&Record| function.number(0) == call.number(0);
        for function in image.of(Section::Function).iter().filter(called) {
            let parameters = image.part(Section::Parameter, function.range(2));
            for (parameter, argument) in parameters.expect("a range").iter().zip(arguments) {
                let small = small::of(image.node(u64::from(*argument)));
                let row = |small| (parameter.number(2), parameter.number(4) as i64, small);
                all.extend(small.filter(|_| parameter.number(3) == 1).map(row));
            }
        }
    }
    all
}

#[test]
fn refined_by_every_limit() {
    let seen: HashSet<(u64, i64, Small)> = picked::images().iter().flat_map(refined).collect();
    for (small, (_, limit)) in
        small::all().into_iter().flat_map(|s| small::all().into_iter().map(move |l| (s, l)))
    {
        for refinement in 1..=6 {
            let row = (refinement, limit, small);
            assert!(seen.contains(&row), "not listed: {row:?}");
        }
    }
}

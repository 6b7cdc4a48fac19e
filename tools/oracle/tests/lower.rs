//! The independent lowering against the original's.
#![cfg(original)]

use oracle::lower::{Returns, differ, lowered as original, returns, steps};
use oracle::shape::{Part, Shapes};
use rlimg::image::{Image, Value};
use rlimg::lower::lowered;
use rlimg::lowerings::limits::{self, NO_LIMITS};
use rlimg::lowerings::{any, listed};
use rlimg::rng::Rng;
use rlimg::schema::Section;
use std::collections::HashSet;

/// The original is not asked to visit more records.
const STEPS: u64 = 3_000;

fn images(count: usize) -> impl Iterator<Item = Image> {
    let mut rng = Rng::new(9);
    let generated = (0..count).map(move |_| any(&mut rng));
    let limits = limits::small().into_iter().chain(limits::deepest());
    listed::all().into_iter().chain(limits).chain(generated)
}

#[test]
fn the_lowering_agrees_with_the_original() {
    let (mut count, mut kinds) = (0, HashSet::new());
    for image in images(1_500) {
        for function in 0..image.of(Section::Function).len() {
            if steps(&image, function) > STEPS {
                continue;
            }
            let lowered = lowered(&image, function, NO_LIMITS).expect("a small function");
            assert_eq!(differ(&image, &lowered, function), None);
            let old = image.of(Section::Expression).len();
            kinds.extend(lowered.of(Section::Expression)[old..].iter().map(|node| node.kind));
            count += 1;
        }
    }
    // All kinds but the lambdas are copied or made.
    assert_eq!((count > 2_000, kinds.len()), (true, 40), "{count} {kinds:?}");
}

/// The original is handed small constants as they are, and copies conditions
/// of them so.
#[test]
fn small_constants_keep_their_kinds() {
    for image in listed::small_constants() {
        let nodes = original(&image, 0, returns(&image, 0)[0]).nodes;
        let kinds: Vec<u8> = nodes.iter().map(|node| node.kind).collect();
        assert_eq!(kinds[..5], [21, 22, 24, 20, 23]);
        let copied: Vec<&u8> = kinds[5..].iter().filter(|kind| **kind < 25).collect();
        assert_eq!(copied, [&21, &24]);
    }
}

/// The flag stands for two types, of which the original makes the same; of a
/// plain one it makes something else.
#[test]
fn a_result_is_lowered_alike_whatever_its_type() {
    let mut counts = [0; 2];
    for image in images(500) {
        for (function, record) in image.of(Section::Function).iter().enumerate() {
            let both: &[Returns] = &[Returns::Result, Returns::CResult];
            assert_eq!(returns(&image, function) == both, record.number(3) == 1);
            if steps(&image, function) > STEPS {
                continue;
            }
            let [plain, result, other] = [Returns::Plain, Returns::Result, Returns::CResult]
                .map(|returns| original(&image, function, returns));
            assert_eq!(result, other);
            counts[usize::from(result != plain)] += 1;
        }
    }
    assert!(counts.iter().all(|count| *count > 100), "{counts:?}");
}

/// A plain function's body is none of a result function's.
#[test]
fn a_result_taken_for_another_is_seen() {
    let mut seen = 0;
    for mut image in images(0) {
        if image.of(Section::Function).len() != 1 || steps(&image, 0) > STEPS {
            continue;
        }
        let flag = image.of(Section::Function)[0].number(3);
        let good = lowered(&image, 0, NO_LIMITS).expect("a small function");
        image.of_mut(Section::Function)[0].values[3] = Value::Number(1 - flag);
        seen += usize::from(differ(&image, &good, 0).is_some());
    }
    assert!(seen > 10, "{seen}");
}

/// A changed span, a statement less, another statement.
#[test]
fn a_difference_is_seen() {
    for image in limits::small() {
        let good = lowered(&image, 0, NO_LIMITS).expect("a small function");
        let shapes = Shapes::of(&good, 0);
        for node in image.of(Section::Expression).len()..shapes.nodes.len() {
            let mut other = Shapes::of(&good, 0);
            other.nodes[node].span = Some(70_000);
            assert!(other.differ(&shapes).is_some());
        }
        let mut other = Shapes::of(&good, 0);
        other.body.pop();
        assert!(other.differ(&shapes).is_some());
        let mut other = Shapes::of(&good, 0);
        other.body[0] = Part::Nothing;
        assert!(other.differ(&shapes).is_some());
    }
}

//! Lowering: the marked cases, the limits, and what runs of lowered functions
//! say.

use rlimg::builder::Builder;
use rlimg::code::{self, Code};
use rlimg::decode::decode;
use rlimg::encode::encode;
use rlimg::image::{Image, WORK};
use rlimg::lower::{answer, lowered, Call, FORMAT, ROOM};
use rlimg::lowerings::limits::{deepest, fitting, heights, hostile, small};
use rlimg::lowerings::{any, calls, with_clauses};
use rlimg::rng::Rng;
use rlimg::run::{premises_hold, Program, Shown, Value};
use rlimg::runs::{self, Run};
use rlimg::schema::Section;
use std::time::{Duration, Instant};

const CALL: Call = Call { work: WORK, function: 0, room: ROOM };

fn number(image: &Image, call: Call) -> u32 {
    answer(&encode(image), call).map_or_else(|refusal| refusal.number, |_| 0)
}

/// The kinds of the expressions that lowering adds.
fn added(image: &Image) -> Vec<u8> {
    let lowered = lowered(image, 0, FORMAT).expect("within the limits");
    let before = image.of(Section::Expression).len();
    lowered.of(Section::Expression)[before..].iter().map(|node| node.kind).collect()
}

fn result_function(mut image: Image) -> Image {
    image.of_mut(Section::Function)[0].values[3] = 1.into();
    image
}

#[test]
fn a_requires_without_a_message() {
    let mut code = Code::new(Builder::new(1));
    let name = code.name("x");
    code.function(&[], &[]);
    let image = with_clauses(code.builder.image, 0, &[(name, None)], &[]);
    assert_eq!(added(&image), [25, 30, 33, 50, 41]);
}

#[test]
fn an_ensures_of_a_result_function() {
    let image = code::image(&[], |code| {
        let value = code.bool(true);
        vec![code.give(value)]
    });
    let image = result_function(with_clauses(image, 0, &[], &[(0, None)]));
    assert_eq!(added(&image).len(), 10);
}

#[test]
fn a_return_under_an_ensures_takes_nine_steps() {
    let image = code::image(&[], |code| {
        let (value, _) = (code.bool(true), code.name("ret"));
        vec![code.give(value)]
    });
    let image = with_clauses(image, 0, &[], &[(1, None)]);
    let lowered = lowered(&image, 0, FORMAT).expect("within the limits");
    let run = Program::new(&lowered).plainly(0, &[], 100);
    assert_eq!(run, Ok(([1, 9, 4, 1], vec![])));
    assert_eq!(Program::new(&image).reading(0, &[], 100), run);
}

/// Both as the reading and as the lowered run.
fn read_and_run(image: &Image) -> Shown {
    let lowered = lowered(image, 0, FORMAT).expect("within the limits");
    let run = Program::new(&lowered).plainly(0, &[], 100).expect("no refusal");
    assert_eq!(Program::new(image).reading(0, &[], 100).as_ref(), Ok(&run));
    run
}

#[test]
fn small_constants_are_copied_and_read() {
    let image = code::image(&[], |code| {
        let [_, message, value] =
            [("Byte", 5), ("SByte", -128), ("BByte", 65_535)].map(|small| code.small(small));
        _ = code.binary(value, 8, message);
        vec![code.give(value)]
    });
    let verdict = |clause| with_clauses(image.clone(), 0, &[clause], &[]);
    // A condition that is no truth value is fault 4.
    let byte = verdict((0, None));
    assert_eq!(added(&byte), [25, 21, 33, 50, 41]);
    assert_eq!(read_and_run(&byte).0, [3, 3, 4, 0]);
    // A message is what it evaluates to.
    let failing = verdict((3, Some(1)));
    assert_eq!(added(&failing), [23, 22, 32, 33, 50, 41]);
    assert_eq!(read_and_run(&failing).0, [2, 9, 1, -128_i64 as u64]);
    assert_eq!(read_and_run(&result_function(failing)).0, [1, 8, 17, -128_i64 as u64]);
    let ensured = with_clauses(image.clone(), 0, &[], &[(3, Some(1))]);
    assert_eq!(read_and_run(&ensured).0[2..], [1, -128_i64 as u64]);
}

#[test]
fn a_lambda_is_not_copied() {
    let mut code = Code::new(Builder::new(1));
    let lambda = code.node("Lambda", &[7.into()]);
    code.function(&[], &[]);
    let image = with_clauses(code.builder.image, 0, &[(lambda, Some(lambda))], &[]);
    assert_eq!(added(&image), [33, 50, 41]);
}

#[test]
fn a_conditional_that_stands_else_passes_through() {
    let image = code::image(&[], |code| {
        let value = code.bool(true);
        let give = code.give(value);
        let branch = code.branch(None, &[give]);
        let other = code.conditional(branch, None);
        vec![code.conditional(branch, Some(other))]
    });
    let lowered = lowered(&with_clauses(image, 0, &[], &[(0, None)]), 0, FORMAT);
    let lowered = lowered.expect("within the limits");
    let body = lowered.of(Section::Function)[0].range(4);
    let body = lowered.list(body.0, body.1).expect("a list");
    let conditional = &lowered.of(Section::Statement)[usize::from(body[0])];
    assert_eq!(conditional.number(2), 2);
    assert_ne!(conditional.number(1), 1);
}

#[test]
fn temporaries_are_numbered_inner_ones_first() {
    let image = code::image(&[], |code| {
        let value = code.bool(true);
        let give = code.give(value);
        vec![code.endless(&[give]), code.bare(value)]
    });
    let lowered = lowered(&with_clauses(image, 0, &[], &[(0, None)]), 0, FORMAT);
    let lowered = lowered.expect("within the limits");
    let (first, _) = lowered.of(Section::Function)[0].range(4);
    let first = lowered.entries[usize::from(first)];
    let declared = &lowered.of(Section::Statement)[usize::from(first)];
    assert_eq!(lowered.text_of(declared.number(1) as u16), Some(&b"__ensure_ret_1"[..]));
}

#[test]
fn the_lowered_image_is_accepted_and_only_grows() {
    let mut rng = Rng::new(4);
    for image in (0..400).map(|_| any(&mut rng)).chain(small()).chain(deepest()) {
        for function in 0..image.of(Section::Function).len() {
            let call = Call { function: function as u32, ..CALL };
            let Ok(bytes) = answer(&encode(&image), call) else { continue };
            let mut lowered = decode(&bytes).expect("an accepted image");
            let body = image.of(Section::Function)[function].values[4];
            lowered.of_mut(Section::Function)[function].values[4] = body;
            lowered.text.truncate(image.text.len());
            lowered.texts.truncate(image.texts.len());
            lowered.entries.truncate(image.entries.len());
            for section in [Section::Expression, Section::Statement] {
                lowered.of_mut(section).truncate(image.of(section).len());
            }
            assert_eq!(lowered, image);
        }
    }
}

#[test]
fn a_function_fits_exactly_or_not_at_all() {
    let (mut fits, mut full) = (0, 0);
    for (left, needed, image) in fitting() {
        assert!(decode(&encode(&image)).is_ok());
        assert_eq!(number(&image, CALL), if left < needed { 14 } else { 0 });
        *(if left < needed { &mut full } else { &mut fits }) += 1;
    }
    assert!(fits >= 80 && full >= 100, "{fits} {full}");
}

#[test]
fn heights_are_refused_anywhere() {
    for (allowed, image) in heights() {
        assert_eq!(number(&image, CALL), if allowed { 0 } else { 12 });
        assert_eq!(number(&image, Call { function: 1, ..CALL }), 11);
        let room = Call { room: ROOM - 1, ..CALL };
        assert_eq!(number(&image, room), if allowed { 13 } else { 12 });
        assert_eq!(number(&image, Call { work: WORK - 1, ..room }), 2);
    }
    for image in deepest() {
        assert_eq!(number(&image, CALL), 0);
    }
}

#[test]
fn hostile_sharing_is_refused_at_once() {
    for image in hostile() {
        let start = Instant::now();
        assert_eq!(number(&image, CALL), 14);
        assert!(start.elapsed() < Duration::from_secs(1));
    }
}

#[test]
fn calls_are_refused_in_every_way() {
    let mut rng = Rng::new(8);
    let mut seen = [0; 15];
    let mut images: Vec<Image> = (0..700).map(|_| any(&mut rng)).collect();
    images.extend(heights().into_iter().map(|(_, image)| image));
    for image in images {
        for call in calls(&mut rng, &image) {
            seen[number(&image, call) as usize] += 1;
        }
    }
    for refusal in [0, 2, 11, 12, 13, 14] {
        assert!(seen[refusal] >= 5, "{seen:?}");
    }
}

#[test]
fn the_lowered_run_is_the_reading() {
    let mut rng = Rng::new(6);
    let mut compared = 0;
    for size in (0..4_000).map(|number| [1, 2, 4, 6][number % 4]) {
        let Run { image, call } = runs::contracted(&mut rng, size);
        let function = call.function;
        let lowered = answer(&encode(&image), Call { function, ..CALL });
        let Some(lowered) = lowered.ok().filter(|_| premises_hold(&image, function as usize))
        else {
            continue;
        };
        let lowered = decode(&lowered).expect("an accepted image");
        let values = Value::list(&call.words).expect("words of values");
        let (reading, lowered) = (Program::new(&image), Program::new(&lowered));
        for budget in [2_000, rng.below(40) as u32, rng.below(200) as u32] {
            let run = lowered.plainly(function, &values, budget);
            assert_eq!(reading.reading(function, &values, budget), run);
            compared += 1;
        }
    }
    assert!(compared > 10_000);
}

/// Outside the premises the run may say something else: a bare last expression
/// comes first, and a name may be that of a temporary.
#[test]
fn both_premises_are_needed() {
    let bare = code::image(&[], |code| {
        let (one, two) = (code.integer(1), code.integer(2));
        let (give, bare) = (code.give(one), code.bare(two));
        _ = code.bool(true);
        vec![give, bare]
    });
    let named = code::image(&[], |code| {
        let (one, two) = (code.integer(1), code.integer(2));
        let give = code.give(one);
        let assigned = code.assign("__ensure_ret_0", two);
        _ = code.binary(assigned, 6, two);
        vec![give]
    });
    for image in [bare, named] {
        let condition = image.of(Section::Expression).len() as u16 - 1;
        let image = with_clauses(image, 0, &[], &[(condition, None)]);
        assert!(!premises_hold(&image, 0));
        let lowered = lowered(&image, 0, FORMAT).expect("within the limits");
        let run = Program::new(&lowered).plainly(0, &[], 100);
        assert_ne!(Program::new(&image).reading(0, &[], 100), run);
    }
}

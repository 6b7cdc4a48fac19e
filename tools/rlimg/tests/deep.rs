//! Functions at the limits: accepted, as tall as can be, and run as said.

use rlimg::deep::{long_names, long_texts, nested, NESTED, TALL};
use rlimg::encode::encode;
use rlimg::fold::Folded;
use rlimg::image::{EXPRESSION_HEIGHT, STATEMENT_HEIGHT, WORK};
use rlimg::reader::read;
use rlimg::run::{Ending, Outcome, Program, Value, BUDGET, NULL};

#[test]
fn nested_functions_are_as_tall_as_can_be() {
    for (way, kind) in (0..NESTED).flat_map(|way| (0..TALL).map(move |kind| (way, kind))) {
        let image = nested(way, kind);
        let accepted = read(&encode(&image), WORK).expect("accepted");
        assert_eq!(accepted.expression_heights.iter().max(), Some(&EXPRESSION_HEIGHT));
        assert_eq!(accepted.statement_heights.last(), Some(&STATEMENT_HEIGHT));
        let outcome = Program::new(&image).run(0, &[NULL], BUDGET).expect("no refusal");
        let expected = Value::Plain(Some(Folded::Bool(true)));
        assert_eq!(outcome.ending, Ending::Returned(expected), "way {way}, kind {kind}");
        assert!(outcome.steps > u32::from(EXPRESSION_HEIGHT));
    }
}

#[test]
fn long_names_and_texts_run_on() {
    for image in [long_names(), long_texts()] {
        assert!(read(&encode(&image), WORK).is_ok());
        let outcome = Program::new(&image).run(0, &[], 2_000).expect("no refusal");
        assert_eq!(outcome, Outcome { ending: Ending::Spent, steps: 2_000 });
    }
}

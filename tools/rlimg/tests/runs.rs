//! Generated functions: accepted, the same for the same seed, and their runs
//! end in every way that there is.

use rlimg::decode::decode;
use rlimg::encode::encode;
use rlimg::image::{Image, Value as Field, NONE};
use rlimg::rng::Rng;
use rlimg::run::{answer_to, Call, Program, Value};
use rlimg::runs::{self, Run};
use rlimg::schema::{Section, ROWS};
use std::collections::{BTreeMap, HashSet};

/// A run that takes more steps is not waited for.
const LONG: u32 = 3_000;

fn runs(count: usize) -> impl Iterator<Item = Run> {
    let mut rng = Rng::new(5);
    (0..count).map(move |number| runs::any(&mut rng, [1, 2, 4, 6][number % 4]))
}

#[test]
fn generated_functions_are_accepted_and_come_back() {
    for run in runs(4_000) {
        assert_eq!(decode(&encode(&run.image)).as_ref(), Ok(&run.image));
    }
}

#[test]
fn the_same_seed_gives_the_same_functions() {
    for seed in 0..100 {
        let run = || runs::any(&mut Rng::new(seed), 4);
        assert_eq!((encode(&run().image), run().call), (encode(&run().image), run().call));
    }
}

/// What ends a run: "1" to "4" for an outcome, with a fault's number or a
/// value's sort.
fn ending(words: [u64; 4]) -> String {
    match words[0] {
        4 => "4".to_string(),
        outcome => format!("{outcome} {}", words[2]),
    }
}

#[test]
fn runs_end_in_every_way() {
    let mut seen: BTreeMap<String, usize> = BTreeMap::new();
    let mut steps = BTreeMap::new();
    for run in runs(30_000) {
        let call = Call { budget: LONG, ..run.call };
        match answer_to(&Ok(run.image), &call) {
            Ok(words) => {
                *seen.entry(ending(words)).or_default() += 1;
                *steps.entry(words[1].next_power_of_two()).or_insert(0) += 1;
            }
            Err(refusal) => *seen.entry(format!("refused {}", refusal.number)).or_default() += 1,
        }
    }
    println!("{seen:?}\nsteps {steps:?}");
    let sorts = (0..5).flat_map(|sort| [0, 8, 16].map(|wrapped| format!("1 {}", sort + wrapped)));
    let mut wanted: Vec<String> = sorts.collect();
    wanted.extend((0..5).map(|sort| format!("2 {sort}")));
    wanted.extend((1..6).map(|fault| format!("3 {fault}")));
    wanted.extend(["4".to_string(), "refused 19".to_string()]);
    wanted.retain(|name| seen.get(name).is_none_or(|count| *count < 20));
    assert!(wanted.is_empty(), "hardly generated: {wanted:?}");
}

#[test]
fn broken_calls_are_refused_in_every_way() {
    let mut seen: BTreeMap<u32, usize> = BTreeMap::new();
    let mut rng = Rng::new(6);
    for run in runs(10_000) {
        let call = runs::broken(&mut rng, &run.image, &run.call);
        let answer = answer_to(&Ok(run.image), &Call { budget: call.budget.max(1), ..call });
        *seen.entry(answer.map_or_else(|refusal| refusal.number, |_| 0)).or_default() += 1;
    }
    println!("{seen:?}");
    for number in [2, 11, 19, 20, 21] {
        assert!(seen.get(&number).is_some_and(|count| *count > 100), "refusal {number}");
    }
}

#[test]
fn generated_functions_cover_what_there_is() {
    let mut seen = HashSet::new();
    for run in runs(20_000) {
        for record in run.image.records.iter().flatten() {
            seen.insert(format!("kind {}", record.kind));
        }
        see_statements(&mut seen, &run.image);
        see_texts(&mut seen, &run.image);
        seen.insert(format!("{} values", run.call.words.len() / 2));
        let values = Value::list(&run.call.words).expect("values");
        let program = Program::new(&run.image);
        if values.len() <= 16 {
            assert!(program.run(run.call.function, &values, 0).is_ok());
        }
    }
    let mut wanted: Vec<String> = (0..=17).map(|count| format!("{count} values")).collect();
    let kinds = ROWS.iter().filter(|row| row.section != Section::Call);
    wanted.extend(kinds.map(|row| format!("kind {}", row.kind)));
    for other in ["none", "68", "69", "69 with a condition"] {
        wanted.push(format!("else {other}"));
    }
    for other in ["a text twice", "no statements", "a branch in a body", "bare last"] {
        wanted.push(other.to_string());
    }
    wanted.retain(|name| !seen.contains(name));
    assert!(wanted.is_empty(), "not generated: {wanted:?}");
}

fn see_statements(seen: &mut HashSet<String>, image: &Image) {
    let statements = image.of(Section::Statement);
    for record in statements.iter().filter(|record| record.kind == 68) {
        let other = match record.number(2) as u16 {
            NONE => "none",
            other => match &statements[usize::from(other)] {
                record if record.kind == 68 => "68",
                record if record.values[1] == Field::from(NONE) => "69",
                _ => "69 with a condition",
            },
        };
        seen.insert(format!("else {other}"));
    }
    for function in image.of(Section::Function) {
        let (first, count) = function.range(4);
        let body = image.list(first, count).expect("a list");
        let kinds: Vec<u8> = body.iter().map(|at| statements[usize::from(*at)].kind).collect();
        for (is_seen, name) in [
            (kinds.is_empty(), "no statements"),
            (kinds.contains(&69), "a branch in a body"),
            (kinds.last() == Some(&65), "bare last"),
        ] {
            if is_seen {
                seen.insert(name.to_string());
            }
        }
    }
}

fn see_texts(seen: &mut HashSet<String>, image: &Image) {
    let texts: HashSet<_> = (0..image.texts.len() as u16).map(|text| image.text_of(text)).collect();
    if texts.len() < image.texts.len() {
        seen.insert("a text twice".to_string());
    }
}

//! Generated contracts: accepted, the same for the same seed, covering what
//! folding and proving go by.

use rlimg::decode::decode;
use rlimg::encode::encode;
use rlimg::image::{Image, Record, Value, EXPRESSION_HEIGHT, NONE, WORK};
use rlimg::reader;
use rlimg::rng::Rng;
use rlimg::rules;
use rlimg::schema::{Section, ROWS};
use std::collections::HashSet;

/// Stands for all operators that mean nothing.
const OTHER: u64 = 12;

fn images(count: usize) -> impl Iterator<Item = Image> {
    let mut rng = Rng::new(11);
    (0..count).map(move |number| rules::image(&mut rng, [1, 2, 4, 12][number % 4]))
}

#[test]
fn generated_contracts_are_accepted_and_come_back() {
    for image in images(4_000) {
        assert_eq!(decode(&encode(&image)).as_ref(), Ok(&image));
    }
}

#[test]
fn the_same_seed_gives_the_same_contracts() {
    for seed in 0..100 {
        let image = || encode(&rules::image(&mut Rng::new(seed), 4));
        assert_eq!(image(), image());
    }
}

#[test]
fn generated_contracts_cover_expressions() {
    let mut seen = HashSet::new();
    for image in images(6_000) {
        let heights = reader::read(&encode(&image), WORK).expect("accepted").expression_heights;
        seen.extend(heights.iter().map(|height| format!("height {height}")));
        for record in image.of(Section::Expression) {
            seen.insert(format!("kind {}", record.kind));
            let operands = match record.kind {
                32 => vec![1, 3],
                33 => vec![2],
                _ => continue,
            };
            let operator = number(record, if record.kind == 32 { 2 } else { 1 }).min(OTHER);
            let sorts = operands.iter().map(|at| sort_of(&image, number(record, *at)));
            let sorts: Vec<&str> = sorts.collect();
            seen.insert(format!("{operator} {}", sorts.join(" and ")));
        }
    }
    let sorts = ["whole", "float", "text", "bool", "identifier", "compound", "not taken"];
    let mut wanted = vec![format!("height {EXPRESSION_HEIGHT}")];
    let kinds = ROWS.iter().filter(|row| row.section == Section::Expression);
    wanted.extend(kinds.map(|row| format!("kind {}", row.kind)));
    for operator in 1..=OTHER {
        wanted.extend(sorts.map(|sort| format!("{operator} {sort}")));
        let pairs = sorts.iter().flat_map(|left| sorts.map(|right| (left, right)));
        wanted.extend(pairs.map(|(left, right)| format!("{operator} {left} and {right}")));
    }
    wanted.retain(|name| !seen.contains(name));
    assert!(wanted.is_empty(), "not generated: {wanted:?}");
}

#[test]
fn generated_contracts_cover_functions_and_calls() {
    let mut seen = HashSet::new();
    for image in images(4_000) {
        for record in image.of(Section::Parameter) {
            seen.insert(format!("refinement {} of {}", number(record, 2), number(record, 3)));
        }
        for record in image.of(Section::Clause) {
            seen.insert(format!("message {}", sort_of(&image, number(record, 1))));
        }
        see_functions(&mut seen, &image);
        see_calls(&mut seen, &image);
    }
    let mut wanted = vec!["refinement 0 of 0".to_string()];
    wanted
        .extend((1..7).flat_map(|op| (1..5).map(move |sort| format!("refinement {op} of {sort}"))));
    wanted.extend((0..7).map(|count| format!("{count} parameters")));
    for other in ["none", "text", "compound", "identifier", "not taken"] {
        wanted.push(format!("message {other}"));
    }
    for other in [
        "a name twice",
        "a parameter twice",
        "none behind contracts",
        "unknown callee",
        "as many",
        "more",
        "fewer",
        "own name",
        "strange name",
        "name of a later parameter",
    ] {
        wanted.push(other.to_string());
    }
    wanted.retain(|name| !seen.contains(name));
    assert!(wanted.is_empty(), "not generated: {wanted:?}");
}

fn number(record: &Record, position: usize) -> u64 {
    match record.values[position] {
        Value::Number(number) => number,
        Value::Range(..) => panic!("no number"),
    }
}

fn sort_of(image: &Image, node: u64) -> &'static str {
    if node == u64::from(NONE) {
        return "none";
    }
    let record = &image.of(Section::Expression)[node as usize];
    match record.kind {
        17 | 18 | 20..=24 => "whole",
        19 if number(record, 1) >> 63 == 0 => "whole",
        27 | 28 => "float",
        25 => "text",
        26 => "bool",
        30 => "identifier",
        32..=34 => "compound",
        _ => "not taken",
    }
}

fn text(image: &Image, record: &Record, position: usize) -> Vec<u8> {
    image.text_of(number(record, position) as u16).expect("a text").to_vec()
}

fn part(records: &[Record], value: Value) -> &[Record] {
    match value {
        Value::Range(first, count) => &records[usize::from(first)..][..usize::from(count)],
        Value::Number(_) => panic!("no range"),
    }
}

fn parameters<'a>(image: &'a Image, function: &Record) -> &'a [Record] {
    part(image.of(Section::Parameter), function.values[2])
}

fn has_contracts(image: &Image, function: &Record) -> bool {
    let refined = parameters(image, function).iter().any(|record| number(record, 2) > 0);
    refined || !part(image.of(Section::Clause), function.values[5]).is_empty()
}

fn see_functions(seen: &mut HashSet<String>, image: &Image) {
    let (mut known, mut contracts) = (HashSet::new(), HashSet::new());
    for function in image.of(Section::Function) {
        let parameters = parameters(image, function);
        seen.insert(format!("{} parameters", parameters.len()));
        let names: HashSet<Vec<u8>> = parameters.iter().map(|p| text(image, p, 0)).collect();
        if names.len() < parameters.len() {
            seen.insert("a parameter twice".to_string());
        }
        let name = text(image, function, 0);
        if has_contracts(image, function) {
            contracts.insert(name.clone());
        } else if contracts.contains(&name) {
            seen.insert("none behind contracts".to_string());
        }
        if !known.insert(name) {
            seen.insert("a name twice".to_string());
        }
    }
}

fn see_calls(seen: &mut HashSet<String>, image: &Image) {
    for call in image.of(Section::Call) {
        let name = text(image, call, 0);
        let mut functions = image.of(Section::Function).iter().rev();
        let Some(function) = functions.find(|function| text(image, function, 0) == name) else {
            seen.insert("unknown callee".to_string());
            continue;
        };
        let Value::Range(first, count) = call.values[2] else { panic!("no list") };
        let arguments = image.list(first, count).expect("a list");
        let parameters = parameters(image, function);
        let how_many = match arguments.len() {
            count if count == parameters.len() => "as many",
            count if count > parameters.len() => "more",
            _ => "fewer",
        };
        seen.insert(how_many.to_string());
        let names: Vec<Vec<u8>> = parameters.iter().map(|p| text(image, p, 0)).collect();
        for (position, argument) in arguments.iter().enumerate() {
            let record = &image.of(Section::Expression)[usize::from(*argument)];
            if record.kind == 30 {
                let name = text(image, record, 1);
                let which = match names.iter().position(|known| *known == name) {
                    None => "strange name",
                    Some(parameter) if parameter > position => "name of a later parameter",
                    Some(_) => "own name",
                };
                seen.insert(which.to_string());
            }
        }
    }
}

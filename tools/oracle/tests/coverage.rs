//! Generated contracts, through the original: every kind of report, and every
//! verdict of every operator.
#![cfg(original)]

use oracle::reports;
use rlimg::image::{Image, NONE, Record, Value};
use rlimg::rng::Rng;
use rlimg::rules;
use rlimg::schema::Section;
use std::collections::HashSet;

const PROVEN: &str = "contract violation (proven at compile time): ";
const REFINEMENT: &str = "contract violation (proven at compile time): refinement failed: ";
const BANG: u16 = 5;
const BANG_EQUAL: u16 = 7;

fn images(count: usize) -> impl Iterator<Item = Image> {
    let mut rng = Rng::new(5);
    (0..count).map(move |number| rules::image(&mut rng, [1, 2, 4, 12][number % 4]))
}

fn number(record: &Record, position: usize) -> u16 {
    match record.values[position] {
        Value::Number(number) => number as u16,
        Value::Range(..) => panic!("no number"),
    }
}

/// Adds an expression behind the others.
fn append(image: &mut Image, kind: u8, values: &[u16]) -> u16 {
    let values = [0].iter().chain(values).map(|value| Value::from(*value)).collect();
    let nodes = image.of_mut(Section::Expression);
    nodes.push(Record { kind, values });
    (nodes.len() - 1) as u16
}

fn append_string(image: &mut Image, text: &str) -> u16 {
    let offset = image.text.len() as u16;
    image.text.extend(text.bytes());
    image.texts.push((offset, text.len() as u16));
    let text = (image.texts.len() - 1) as u16;
    append(image, 25, &[text])
}

/// Every clause gets a message that says what it was.
fn with_messages_named(image: &Image) -> Image {
    let mut named = image.clone();
    for (index, clause) in image.of(Section::Clause).iter().enumerate() {
        let was = match number(clause, 1) {
            NONE => "no message",
            node if image.of(Section::Expression)[usize::from(node)].kind == 25 => "a String",
            _ => "not a String",
        };
        let message = append_string(&mut named, was);
        named.of_mut(Section::Clause)[index].values[1] = message.into();
    }
    named
}

#[test]
fn every_kind_of_report_occurs() {
    let mut seen = HashSet::new();
    for image in images(3_000) {
        let all = reports(&image);
        let calls: HashSet<u32> = all.iter().map(|report| report.call).collect();
        seen.insert(format!("{} calls reported", calls.len().min(3)));
        for report in all {
            if let Some(refinement) = report.message.strip_prefix(REFINEMENT) {
                let words: Vec<&str> = refinement.splitn(3, ' ').collect();
                seen.insert(format!("{} {}", words[1], operand_sort(words[2])));
            }
            if report.message == format!("{PROVEN}requires violated") {
                seen.insert("the default".to_string());
            }
        }
        for report in reports(&with_messages_named(&image)) {
            seen.insert(report.message.trim_start_matches(PROVEN).to_string());
        }
    }
    let mut wanted: Vec<String> = (0..4).map(|calls| format!("{calls} calls reported")).collect();
    for op in ["<", "<=", ">", ">=", "==", "!="] {
        wanted.extend(["Integer", "Str", "Param"].map(|sort| format!("{op} {sort}")));
    }
    wanted.extend(["==", "!="].map(|op| format!("{op} Bool")));
    for other in ["the default", "no message", "a String", "not a String"] {
        wanted.push(other.to_string());
    }
    wanted.retain(|name| !seen.contains(name));
    assert!(wanted.is_empty(), "not reported: {wanted:?}");
    let ordered = ["< Bool", "<= Bool", "> Bool", ">= Bool"].map(str::to_string);
    assert!(ordered.iter().all(|name| !seen.contains(name)), "Bools have no order");
}

fn operand_sort(operand: &str) -> &'static str {
    match operand.chars().next() {
        Some('"') => "Str",
        Some('-' | '0'..='9') => "Integer",
        _ if operand == "true" || operand == "false" => "Bool",
        _ => "Param",
    }
}

/// The image with other requires wherever a function had some: for each
/// Binary and Unary, is it false, is it true, has it a value?
fn asking(image: &Image) -> Image {
    let mut asking = image.clone();
    asking.of_mut(Section::Clause).clear();
    for (node, record) in image.of(Section::Expression).iter().enumerate() {
        if !matches!(record.kind, 32 | 33) {
            continue;
        }
        let node = node as u16;
        let negated = append(&mut asking, 33, &[BANG, node]);
        let unequal = append(&mut asking, 32, &[node, BANG_EQUAL, node]);
        for (condition, what) in [(node, "false"), (negated, "true"), (unequal, "value")] {
            let message = append_string(&mut asking, &format!("{node} {what}"));
            let values = vec![condition.into(), message.into()];
            asking.of_mut(Section::Clause).push(Record { kind: 81, values });
        }
    }
    let all = Value::Range(0, asking.of(Section::Clause).len() as u16);
    for function in asking.of_mut(Section::Function) {
        let none = Value::Range(0, 0);
        let some = !matches!(function.values[5], Value::Range(_, 0));
        function.values[5..].copy_from_slice(&[if some { all } else { none }, none]);
    }
    asking
}

/// The operator of a Binary or Unary: its number, 12 for the others.
fn operator(image: &Image, node: usize) -> Option<String> {
    let record = &image.of(Section::Expression)[node];
    match record.kind {
        32 => Some(format!("binary {}", number(record, 2).min(12))),
        33 => Some(format!("unary {}", number(record, 1).min(12))),
        _ => None,
    }
}

#[test]
fn every_verdict_of_every_operator_occurs() {
    let mut seen = HashSet::new();
    for image in images(2_000) {
        let mut answered = HashSet::new();
        let mut calls = HashSet::new();
        for report in reports(&asking(&image)) {
            let Some(answer) = report.message.strip_prefix(PROVEN) else { continue };
            let Some((node, what)) = answer.split_once(' ') else { continue };
            let Ok(node) = node.parse::<usize>() else { continue };
            seen.insert(format!("{} {what}", operator(&image, node).unwrap()));
            answered.insert((report.call, node));
            calls.insert(report.call);
        }
        for node in 0..image.of(Section::Expression).len() {
            let Some(operator) = operator(&image, node) else { continue };
            if calls.iter().any(|call| !answered.contains(&(*call, node))) {
                seen.insert(format!("{operator} none"));
            }
        }
    }
    let mut expected: HashSet<String> = HashSet::new();
    for operator in 6..12 {
        expected.extend(["false", "true", "value"].map(|what| format!("binary {operator} {what}")));
    }
    expected.extend((1..5).map(|operator| format!("binary {operator} value")));
    expected.extend(["unary 2 value", "unary 5 false", "unary 5 true"].map(str::to_string));
    expected.insert("unary 5 value".to_string());
    expected
        .extend((1..13).flat_map(|o| ["binary", "unary"].map(|arity| format!("{arity} {o} none"))));
    let missing: Vec<&String> = expected.difference(&seen).collect();
    let surplus: Vec<&String> = seen.difference(&expected).collect();
    assert!(missing.is_empty() && surplus.is_empty(), "missing {missing:?}, surplus {surplus:?}");
}

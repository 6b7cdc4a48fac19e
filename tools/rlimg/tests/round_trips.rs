//! Generated images: accepted, covering the format, and the same after each
//! way there and back.

use rlimg::builder::{Builder, Function, Operand};
use rlimg::decode::decode;
use rlimg::encode::encode;
use rlimg::image::{Image, Value, NONE, WORK};
use rlimg::random::{self, Shape};
use rlimg::rng::Rng;
use rlimg::schema::{self, Section, ROWS};
use rlimg::{edges, reader, text};
use std::collections::HashSet;

fn images(count: usize) -> impl Iterator<Item = Image> {
    let mut rng = Rng::new(7);
    (0..count).map(move |number| {
        let size = [2, 6, 20, 60, 3, 9, 30, 180][number % 8];
        random::image(&mut rng, Shape::of(size, number % 8 > 5))
    })
}

#[test]
fn generated_images_are_accepted_and_come_back() {
    for image in images(4_000) {
        let bytes = encode(&image);
        let accepted = reader::read(&bytes, WORK).expect("accepted");
        assert_eq!(accepted.arena, image.arena);
        assert_eq!(accepted.expression_heights.len(), image.of(Section::Expression).len());
        assert_eq!(accepted.statement_heights.len(), image.of(Section::Statement).len());
        assert_eq!(decode(&bytes).as_ref(), Ok(&image));
        let built = text::build(&text::dump(&image)).expect("built");
        assert_eq!(built, image);
    }
}

#[test]
fn edge_images_come_back_from_their_text() {
    let mut all = vec![edges::largest(), edges::statement_chain(36)];
    all.extend((0..9).map(|position| edges::with_count(position, 64)));
    for image in all {
        let bytes = encode(&image);
        assert_eq!(decode(&bytes).as_ref(), Ok(&image));
        let built = text::build(&text::dump(&image)).expect("built");
        assert_eq!(encode(&built), bytes);
    }
}

#[test]
fn a_small_image_of_each_kind_is_accepted() {
    for row in &ROWS {
        for seed in 0..50 {
            let image = random::image_with(&mut Rng::new(seed), row);
            assert_eq!(image.of(row.section).last().map(|record| record.kind), Some(row.kind));
            assert_eq!(decode(&encode(&image)).as_ref(), Ok(&image));
        }
    }
}

#[test]
fn generated_images_cover_the_format() {
    let mut seen = HashSet::new();
    for image in images(4_000) {
        let accepted = reader::read(&encode(&image), WORK).expect("accepted");
        let tallest = |heights: &[u16]| heights.iter().max().copied().unwrap_or(0);
        seen.insert(format!("expressions {}", tallest(&accepted.expression_heights)));
        seen.insert(format!("statements {}", tallest(&accepted.statement_heights)));
        for (index, (_, length)) in image.texts.iter().enumerate() {
            seen.insert(format!("length {length}"));
            let text = std::str::from_utf8(image.text_of(index as u16).unwrap()).unwrap();
            seen.extend(text.chars().map(|character| format!("bytes {}", character.len_utf8())));
        }
        for record in image.records.iter().flatten() {
            seen.insert(format!("kind {}", record.kind));
            see_values(&mut seen, &image, record.kind, &record.values);
        }
    }
    let mut wanted: Vec<String> = ROWS.iter().map(|row| format!("kind {}", row.kind)).collect();
    wanted.extend((0..5).map(|sort| format!("OperandSort {sort}")));
    wanted.extend((0..7).map(|refinement| format!("Refinement {refinement}")));
    wanted.extend((1..64).map(|operator| format!("Operator {operator}")));
    wanted.extend((1..5).map(|bytes| format!("bytes {bytes}")));
    for other in ["expressions 68", "statements 36", "length 0", "none", "empty at the end"] {
        wanted.push(other.to_string());
    }
    wanted.retain(|name| !seen.contains(name));
    assert!(wanted.is_empty(), "not generated: {wanted:?}");
}

fn see_values(seen: &mut HashSet<String>, image: &Image, kind: u8, values: &[Value]) {
    let row = schema::of_kind(kind).unwrap();
    for (sort, value) in row.sorts.iter().zip(values) {
        match *value {
            Value::Number(number) if number < 64 && sort.width() == 1 => {
                seen.insert(format!("{sort:?} {number}"));
            }
            Value::Number(number) if number == u64::from(NONE) && sort.width() == 2 => {
                seen.insert("none".to_string());
            }
            Value::Range(first, 0) if usize::from(first) == image.entries.len() => {
                seen.insert("empty at the end".to_string());
            }
            _ => (),
        }
    }
}

#[test]
fn the_text_form_names_what_is_wrong() {
    let fault = |text| text::build(text).unwrap_err();
    assert_eq!(fault("arena 1\nexpression 1 span 0 Null"), "line 2: expression 0 expected, not 1");
    assert_eq!(fault("expression 0 span 0 Nul"), "line 1: unknown kind");
    assert_eq!(fault("expression 0 span 0 Byte 256"), "line 1: 256 does not fit 1 bytes");
    assert_eq!(fault("expression 0 span 0 Null 1"), "line 1: 1 is too much");
    assert_eq!(fault("bytes \"a"), "line 1: the closing quote is missing");
}

#[test]
fn the_text_form_reads_as_written() {
    let image = text::build(
        "arena 5\nbytes \"\\\"\\u{e9}\\x80 #\" # raw\ntext 0 0+3\nentry 0 7\n\
         expression 0 span 9 SByte -2\nexpression 1 span 8 Binary 0 LessEqual 0\n",
    )
    .unwrap();
    assert_eq!(image.arena, 5);
    assert_eq!(image.text, b"\"\xc3\xa9\x80 #");
    assert_eq!((image.texts[0], image.entries[0]), ((0, 3), 7));
    let values = &image.of(Section::Expression)[1].values;
    assert_eq!(values[..3], [Value::Number(8), Value::Number(0), Value::Number(9)]);
    assert_eq!(image.of(Section::Expression)[0].values[1], Value::Number(0xfe));
}

#[test]
fn the_sample_is_built_from_its_text() {
    let image = text::build(include_str!("../../../samples/flow.txt")).unwrap();
    assert_eq!(encode(&image), include_bytes!("../../../samples/flow.img"));
    assert_eq!(built_sample(), image);
}

fn built_sample() -> Image {
    let mut builder = Builder::new(1).interning();
    let name = builder.text("open");
    let flow = builder.identifier(3, "flow");
    let limit = builder.integer(3, 4_096);
    let condition = builder.binary(3, flow, 8, limit);
    let message = builder.string(4, "flow id range");
    let arguments = [builder.integer(7, 0), builder.integer(9, 5_000)];
    let calls = arguments.map(|argument| builder.list(&[argument]));
    builder.call(name, 7, calls[0]);
    builder.call(name, 9, calls[1]);
    let value = builder.identifier(5, "flow");
    let body = builder.statement(5, "Return", &[value.into()]);
    let body = builder.list(&[body]);
    let flow = builder.text("flow");
    let parameters = (builder.parameter(flow, Some((2, Operand::Integer(1)))), 1);
    let requires = (builder.clause(condition, Some(message)), 1);
    let (span, result, ensures) = (2, false, (1, 0));
    builder.function(Function { name, span, parameters, result, body, requires, ensures });
    builder.image
}

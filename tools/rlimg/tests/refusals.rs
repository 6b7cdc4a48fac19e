//! The independent reader on images written by hand, byte by byte.

use rlimg::edges;
use rlimg::encode::{self, encode, What};
use rlimg::image::{LIMITS, WORK};
use rlimg::reader::{read, read_into, Refusal};

/// Where the sections begin when there is no text.
const BODY: u32 = 23;

fn header(counts: [u16; 9]) -> Vec<u8> {
    let mut bytes = vec![1, 0x78, 0x56, 0x34, 0x12];
    bytes.extend(counts.iter().flat_map(|count| count.to_le_bytes()));
    bytes
}

fn image(counts: [u16; 9], parts: &[&[u8]]) -> Vec<u8> {
    [header(counts), parts.concat()].concat()
}

fn refusal(bytes: &[u8]) -> (u32, u32) {
    match read(bytes, WORK) {
        Ok(accepted) => panic!("accepted: {accepted:?}"),
        Err(Refusal { number, place }) => (number, place),
    }
}

fn heights(bytes: &[u8]) -> (Vec<u16>, Vec<u16>) {
    let accepted = read(bytes, WORK).expect("accepted");
    (accepted.expression_heights, accepted.statement_heights)
}

const NULL: &[u8] = &[16, 0, 0, 0, 0];
const BREAK: &[u8] = &[77, 0, 0, 0, 0];
const EMPTY_BRANCH: &[u8] = &[69, 0, 0, 0, 0, 255, 255, 0, 0, 0, 0, 0];
const EMPTY_ARM: &[u8] = &[76, 0, 0, 0, 0, 255, 255, 0, 0, 0, 0];

/// Expressions after 2 texts ("a" and empty), 3 entries (0, 0, 1) and a Null.
fn after_null(record: &[u8]) -> Vec<u8> {
    let texts: &[u8] = &[b'a', 2, 0, 0, 1, 0, 2, 1, 0, 0, 0];
    let entries: &[u8] = &[3, 0, 0, 3, 0, 0, 3, 1, 0];
    image([1, 2, 3, 2, 0, 0, 0, 0, 0], &[texts, entries, NULL, record])
}

/// Where the record of `after_null` begins.
const RECORD: u32 = BODY + 1 + 10 + 9 + 5;

#[test]
fn the_empty_image_is_accepted() {
    let accepted = read(&header([0; 9]), WORK).expect("accepted");
    assert_eq!(accepted.arena, 0x1234_5678);
    assert_eq!(heights(&header([0; 9])), (vec![], vec![]));
}

#[test]
fn length_and_work_come_first() {
    assert_eq!(read(&vec![9; 65_536], 0), Err(Refusal { number: 1, place: 0 }));
    assert_eq!(read(&vec![9; 65_535], 8_191), Err(Refusal { number: 2, place: 0 }));
    assert_eq!(read(&vec![9; 65_535], 8_192), Err(Refusal { number: 4, place: 0 }));
    assert_eq!(encode(&edges::largest()).len(), 65_535);
    assert!(read(&encode(&edges::largest()), WORK).is_ok());
}

#[test]
fn bytes_end_at_the_field_that_is_cut() {
    let whole = after_null(&[31, 1, 1, 1, 1, 0, 0, 2, 2, 2, 2, 3, 3, 3, 3]);
    assert!(read(&whole, WORK).is_ok());
    let mut starts = vec![0, 1];
    starts.extend((5..23).step_by(2)); // counts
    starts.extend([23, 24, 25, 29, 30, 34, 35, 37, 38, 40, 41, 43, 44]);
    let record = RECORD as usize;
    starts.extend([0, 1, 5, 7, 11].map(|field| record + field));
    for length in 0..whole.len() {
        let field = starts.iter().rev().find(|start| **start <= length).unwrap();
        assert_eq!(refusal(&whole[..length]), (3, *field as u32), "{length} bytes");
    }
}

#[test]
fn raw_text_is_one_field() {
    let short = image([4, 0, 0, 0, 0, 0, 0, 0, 0], &[b"abc"]);
    assert_eq!(refusal(&short), (3, BODY));
}

#[test]
fn kinds_belong_to_their_section() {
    assert_eq!(refusal(&[2]), (4, 0));
    assert_eq!(refusal(&image([0, 1, 0, 0, 0, 0, 0, 0, 0], &[&[3]])), (4, BODY));
    assert_eq!(refusal(&image([0, 0, 1, 0, 0, 0, 0, 0, 0], &[&[2]])), (4, BODY));
    for (section, kinds) in
        [[15, 58], [63, 80], [79, 81], [80, 82], [81, 83], [82, 84]].into_iter().enumerate()
    {
        let mut counts = [0; 9];
        counts[3 + section] = 1;
        for kind in kinds {
            assert_eq!(refusal(&image(counts, &[&[kind]])), (4, BODY), "kind {kind}");
        }
    }
}

#[test]
fn counts_have_limits() {
    for (position, limit) in LIMITS.into_iter().enumerate() {
        let full = encode(&edges::with_count(position, limit));
        assert!(read(&full, WORK).is_ok(), "count {position}");
        let over = encode(&edges::with_count(position, limit + 1));
        assert_eq!(refusal(&over), (5, 5 + 2 * position as u32));
    }
}

#[test]
fn texts_lie_inside_and_are_utf8() {
    let one = |raw: &[u8], range: [u8; 4]| {
        let counts = [raw.len() as u16, 1, 0, 0, 0, 0, 0, 0, 0];
        read(&image(counts, &[raw, &[2], &range]), WORK).map_err(|it| (it.number, it.place))
    };
    let euro = "\u{20ac}".as_bytes();
    assert!(one(euro, [0, 0, 3, 0]).is_ok());
    assert!(one(euro, [3, 0, 0, 0]).is_ok());
    assert!(one(euro, [1, 0, 0, 0]).is_ok(), "an empty text has no bytes to be wrong");
    assert!(one(b"\xff a", [1, 0, 2, 0]).is_ok(), "bytes outside texts are free");
    let place = BODY + 3 + 1;
    for range in [[0, 0, 4, 0], [4, 0, 0, 0], [3, 0, 1, 0], [0, 0, 2, 0], [1, 0, 2, 0]] {
        assert_eq!(one(euro, range), Err((6, place)), "{range:?}");
    }
    for raw in [b"\xc0\x80a", b"\xe0\x9f\xbf", b"\xed\xa0\x80", b"\xf4\x90\x80", b"a\xffb"] {
        assert_eq!(one(raw, [0, 0, 3, 0]), Err((6, place)), "{raw:?}");
    }
    assert_eq!(one(&[0xf4, 0x90, 0x80, 0x80], [0, 0, 4, 0]), Err((6, place + 1)));
    assert!(one(&[0xf4, 0x8f, 0xbf, 0xbf], [0, 0, 4, 0]).is_ok());
}

#[test]
fn values_stay_in_their_sets() {
    let span = [0, 0, 0, 0];
    for (body, field) in [
        (vec![26, 2], 5),                // Bool
        (vec![29, 0, 0xd8, 0, 0], 5),    // Character, a surrogate
        (vec![29, 0xff, 0xdf, 0, 0], 5), // the last surrogate
        (vec![29, 0, 0, 0x11, 0], 5),    // above U+10FFFF
        (vec![32, 0, 0, 0, 0, 0], 7),    // operator 0
        (vec![32, 0, 0, 64, 9, 9], 7),   // operator 64, before the right side
        (vec![33, 0, 0, 0], 5),          // Unary
    ] {
        let record = [&body[..1], &span, &body[1..]].concat();
        assert_eq!(refusal(&after_null(&record)), (7, RECORD + field), "{body:?}");
    }
    assert!(read(&after_null(&[33, 0, 0, 0, 0, 63, 0, 0]), WORK).is_ok());
    let mut branch = EMPTY_BRANCH.to_vec();
    branch[11] = 2;
    assert_eq!(refusal(&image([0, 0, 0, 0, 1, 0, 0, 0, 0], &[&branch])), (7, BODY + 11));
}

#[test]
fn references_go_to_earlier_records() {
    let span = [0, 0, 0, 0];
    for (body, field) in [
        (vec![34, 1, 0], 5),                   // itself
        (vec![34, 2, 0], 5),                   // later
        (vec![34, 255, 255], 5),               // none, where not stated
        (vec![25, 2, 0], 5),                   // no such text
        (vec![32, 0, 0, 1, 1, 0], 8),          // right side
        (vec![35, 0, 0, 4, 0], 5),             // list past the end
        (vec![35, 4, 0, 0, 0], 5),             // empty, past the end
        (vec![35, 255, 255, 255, 255], 5),     // both numbers largest
        (vec![35, 2, 0, 1, 0], 5),             // an entry that is itself
        (vec![36, 0, 0, 1, 0], 5),             // half a pair
        (vec![52, 0, 0, 0, 0, 1, 0], 7),       // half a field
        (vec![52, 0, 0, 1, 0, 2, 0], 7),       // field "", value itself
        (vec![41, 0, 0, 4, 0, 0, 0, 0, 0], 5), // path
        (vec![41, 0, 0, 3, 0, 2, 0, 1, 0], 9), // arguments
    ] {
        let record = [&body[..1], &span, &body[1..]].concat();
        assert_eq!(refusal(&after_null(&record)), (8, RECORD + field), "{body:?}");
    }
    for body in [vec![35, 3, 0, 0, 0], vec![36, 0, 0, 2, 0], vec![41, 0, 0, 3, 0, 0, 0, 2, 0]] {
        let record = [&body[..1], &span, &body[1..]].concat();
        assert!(read(&after_null(&record), WORK).is_ok(), "{body:?}");
    }
}

/// Statements 0 Break, 1 ConditionalBranch, 2 MatchArm, then this one; the
/// entries are 0, 1, 2 and there is one Null and one text.
fn after_statements(record: &[u8]) -> Vec<u8> {
    let before: &[u8] = &[2, 0, 0, 0, 0, 3, 0, 0, 3, 1, 0, 3, 2, 0];
    let parts = [before, NULL, BREAK, EMPTY_BRANCH, EMPTY_ARM, record];
    image([0, 1, 3, 1, 4, 0, 0, 0, 0], &parts)
}

#[test]
fn statements_take_statements_of_their_kinds() {
    let start = BODY + 14 + 5 + 5 + 12 + 11;
    let span = [0, 0, 0, 0];
    let none = [255, 255];
    let with = |body: &[u8]| after_statements(&[&body[..1], &span, &body[1..]].concat());
    for (body, field) in [
        (vec![68, 0, 0, 255, 255], 5),               // if branch a Break
        (vec![68, 255, 255, 255, 255], 5),           // if branch none
        (vec![68, 1, 0, 2, 0], 7),                   // else branch an arm
        (vec![68, 1, 0, 3, 0], 7),                   // else branch itself
        (vec![71, 2, 0, 1, 0], 5),                   // an arm in a body
        (vec![75, 0, 0, 1, 0, 2, 0], 7),             // a branch in a Match
        (vec![72, 2, 0, 0, 0, 0, 0, 0, 0, 0, 0], 5), // For an arm
        (vec![73, 0, 0, 2, 0, 0, 0, 0, 0], 7),       // ForRange an arm
        (vec![65, 1, 0], 5),                         // no such expression
        (vec![65, 255, 255], 5),                     // none, where not stated
    ] {
        assert_eq!(refusal(&with(&body)), (8, start + field), "{body:?}");
    }
    for (body, height) in [
        (vec![68, 1, 0, none[0], none[1]], 2),
        (vec![68, 1, 0, 1, 0], 2),
        (vec![71, 0, 0, 2, 0], 2),
        (vec![75, 0, 0, 2, 0, 1, 0], 2),
        (vec![72, 1, 0, 0, 0, 0, 0, 0, 0, 0, 0], 2),
        (vec![65, 0, 0], 1),
        (vec![67], 1),
    ] {
        assert_eq!(heights(&with(&body)), (vec![1], vec![1, 1, 1, height]), "{body:?}");
    }
}

#[test]
fn parameters_pair_refinement_and_operand() {
    let one = |refinement: u8, sort: u8, operand: u64| {
        let start: &[u8] = &[2, 0, 0, 0, 0, 80, 0, 0, 7, 7, 7, 7, refinement, sort];
        let bytes = image([0, 1, 0, 0, 0, 1, 0, 0, 0], &[start, &operand.to_le_bytes()]);
        read(&bytes, WORK).map(|_| ()).map_err(|it| (it.number, it.place - BODY - 5))
    };
    for (refinement, sort, operand) in
        [(0, 0, 0), (1, 1, u64::MAX), (6, 2, 0), (2, 3, 1), (2, 3, 0), (3, 4, 0)]
    {
        assert_eq!(one(refinement, sort, operand), Ok(()), "{refinement} {sort} {operand}");
    }
    assert_eq!(one(7, 9, 9), Err((7, 7)));
    for (refinement, sort) in [(1, 5), (0, 1), (1, 0), (0, 255)] {
        assert_eq!(one(refinement, sort, 0), Err((7, 8)), "{refinement} {sort}");
    }
    for (refinement, sort, operand) in
        [(0, 0, 1), (0, 0, 1 << 63), (1, 3, 2), (1, 3, 256), (1, 2, 1 << 16), (1, 4, 0x1_0001)]
    {
        assert_eq!(one(refinement, sort, operand), Err((7, 9)), "{refinement} {sort} {operand}");
    }
    for (sort, operand) in [(2, 1), (4, 65_535)] {
        assert_eq!(one(1, sort, operand), Err((8, 9)), "{sort} {operand}");
    }
}

#[test]
fn clauses_functions_and_calls() {
    let before: &[u8] = &[2, 0, 0, 0, 0];
    let clause = |record: &[u8]| image([0, 1, 0, 1, 0, 0, 1, 0, 0], &[before, NULL, record]);
    let start = BODY + 10;
    assert!(read(&clause(&[81, 0, 0, 255, 255]), WORK).is_ok());
    assert_eq!(refusal(&clause(&[81, 255, 255, 0, 0])), (8, start + 1));
    assert_eq!(refusal(&clause(&[81, 0, 0, 1, 0])), (8, start + 3));
    let function = |at: usize, value: u8| {
        let mut record = [0; 24];
        record[0] = 82;
        record[at] = value;
        refusal(&image([0, 1, 0, 1, 0, 0, 0, 1, 0], &[before, NULL, &record]))
    };
    for (at, number, field) in
        [(1, 8, 1), (7, 8, 7), (9, 8, 7), (11, 7, 11), (12, 8, 12), (18, 8, 16), (20, 8, 20)]
    {
        assert_eq!(function(at, 2), (number, start + field), "byte {at}");
    }
    let call = |record: &[u8]| image([0, 1, 0, 1, 0, 0, 0, 0, 1], &[before, NULL, record]);
    assert!(read(&call(&[83, 0, 0, 9, 9, 9, 9, 0, 0, 0, 0]), WORK).is_ok());
    assert_eq!(refusal(&call(&[83, 1, 0, 9, 9, 9, 9, 0, 0, 0, 0])), (8, start + 1));
    assert_eq!(refusal(&call(&[83, 0, 0, 9, 9, 9, 9, 0, 0, 1, 0])), (8, start + 7));
}

#[test]
fn heights_have_limits() {
    let expressions = encode(&edges::expression_chain(68));
    assert_eq!(heights(&expressions).0, (1..=68).collect::<Vec<u16>>());
    let over = encode(&edges::expression_chain(70));
    assert_eq!(refusal(&over), (9, BODY + 5 + 67 * 7));
    let statements = edges::statement_chain(36);
    assert_eq!(heights(&encode(&statements)).1.into_iter().max(), Some(36));
    let over = edges::statement_chain(37);
    let mut kinds = encode::places(&over).into_iter().filter(|(_, what)| *what == What::Kind);
    let (last, _) = kinds.next_back().unwrap();
    assert_eq!(refusal(&encode(&over)), (9, last as u32));
}

#[test]
fn nothing_is_left_at_the_end() {
    let mut bytes = header([0; 9]);
    bytes.extend([0, 1]);
    assert_eq!(refusal(&bytes), (10, BODY));
}

#[test]
fn the_work_slice_is_output() {
    let bytes = after_null(&[34, 0, 0, 0, 0, 0, 0]);
    let mut work = vec![0xabcd; 9_000];
    assert!(read_into(&bytes, &mut work).is_ok());
    assert_eq!(work[..3], [1, 2, 0]);
    assert!(work[2..].iter().all(|entry| *entry == 0));
    for (image, length) in [(&bytes[..bytes.len() - 1], 9_000), (&bytes[..], 8_191)] {
        let mut work = vec![0xabcd; length];
        assert!(read_into(image, &mut work).is_err());
        assert!(work.iter().all(|entry| *entry == 0));
    }
}

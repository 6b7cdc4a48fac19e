//! The listed plans: every call of each violates all that it says.

use super::board::Board;
use super::{boards, repeated, widest, Bound, Plan, Says, COUNTS, LENGTHS, LOW, SCALARS};
use crate::hostile::longest_output;
use crate::image::{Image, LIMITS};
use crate::pages::{CALLEE, MESSAGE, OPENING};

/// The columns of "refinement failed: ".
const FAILED: usize = 19;
/// A message of a refinement is made of parts, in a buffer of so many bytes or
/// of none.
const BUFFER: usize = 256;
/// The text bytes of a long name or operand.
const LONG: usize = 3_000;
/// A scalar of each width.
const WIDTHS: [char; 4] = ['a', '\u{e9}', '\u{20ac}', '\u{10ffff}'];
const OPERATORS: [u16; 6] = [1, 2, 3, 4, 5, 6];

fn plan(callee: &str, span: u32, says: Vec<Says>) -> Plan {
    Plan { callee: callee.to_string(), spans: vec![span], says }
}

fn message(text: impl Into<String>) -> Says {
    Says::Message(text.into())
}

/// Each scalar, so often; the same text is callee and message.
fn lengths() -> Vec<Plan> {
    let all = SCALARS.iter().flat_map(|scalar| LENGTHS.map(|length| repeated(*scalar, length)));
    all.map(|text| plan(&text, 1, vec![message(text.clone())])).collect()
}

/// The widths by turns, from each of them on.
fn turns() -> Vec<Plan> {
    let text = |first: usize, length: usize| {
        WIDTHS.iter().cycle().skip(first).take(length).collect::<String>()
    };
    let all = (0..WIDTHS.len()).flat_map(|first| LENGTHS.map(|length| text(first, length)));
    all.map(|text| plan(&text, 2, vec![message(text.clone())])).collect()
}

/// Each two scalars around the last column of callee and message.
fn pairs() -> Vec<Plan> {
    let mut plans = Vec::new();
    for (first, second) in SCALARS.iter().flat_map(|first| SCALARS.map(|second| (*first, second))) {
        let around = |columns: usize, before: usize| {
            format!("{}{first}{second}b", repeated('b', columns - before))
        };
        for before in [1, 2] {
            let says = vec![message(around(MESSAGE, before))];
            plans.push(plan(&around(CALLEE, before), 3, says));
        }
    }
    plans
}

/// Spans and calls of every number of digits.
fn spans() -> Vec<Plan> {
    let mut spans = vec![0, u32::MAX - 1, u32::MAX];
    let powers = (0..10).map(|digits| 10u32.pow(digits));
    spans.extend(powers.flat_map(|power| [power - 1, power, power + 1]));
    let says = vec![message("span"), Says::Violated];
    vec![Plan { callee: "f".to_string(), spans, says }]
}

/// Requires with and without a text, and one that begins as every message does.
fn requires() -> Vec<Plan> {
    let says = vec![
        Says::Violated,
        Says::NoText,
        message(OPENING),
        message(format!("{OPENING}again")),
        message(OPENING.trim_end()),
        message("requires violated"),
    ];
    vec![plan("g", 4, says)]
}

/// Refinements: names and texts of each scalar around the last column, every
/// operator, and operands of every sort.
fn refinements() -> Vec<Plan> {
    let mut plans = Vec::new();
    let left = MESSAGE - FAILED;
    for (number, scalar) in SCALARS.into_iter().enumerate() {
        let mut says = Vec::new();
        for (turn, length) in
            [0, 1, 2, left - 6, left - 2, left - 1, left, left + 1].iter().enumerate()
        {
            let operator = OPERATORS[(number + turn) % OPERATORS.len()];
            let name = repeated(scalar, *length);
            says.push(Says::Refined(name, operator, Bound::Int(-5)));
            // x == "..." has six columns before the text.
            let text = repeated(scalar, length.saturating_sub(6));
            says.push(Says::Refined("x".to_string(), 5, Bound::Str(text)));
        }
        plans.push(plan(&format!("of {number}"), 5, says));
    }
    let mut says: Vec<Says> = Vec::new();
    for (operator, value) in OPERATORS.into_iter().zip([0, 1, -1, i64::MAX - 1, i64::MIN, i64::MAX])
    {
        says.push(Says::Refined("n".to_string(), operator, Bound::Int(value)));
        says.push(Says::Refined("t".to_string(), operator, Bound::Str("two\nlines".to_string())));
    }
    for value in [false, true] {
        says.extend([5, 6].map(|operator| Says::Refined("b".into(), operator, Bound::Bool(value))));
    }
    for (operator, name) in [(1, "o"), (3, "\n\u{1f600}"), (6, "twenty columns of it")] {
        says.push(Says::Refined(name.to_string(), operator, Bound::Own));
    }
    says.extend([Says::Violated, message("after refinements")]);
    plans.push(plan("every operator", 6, says));
    plans
}

/// Refinements of thousands of bytes, and of about as many as a buffer has: a
/// scalar of each width at each place around its end, with the opening and
/// without.
fn long() -> Vec<Plan> {
    let mut plans = Vec::new();
    for (number, scalar) in WIDTHS.into_iter().enumerate() {
        for before in 0..4 {
            let text =
                format!("{}{}", "b".repeat(before), repeated(scalar, LONG / scalar.len_utf8()));
            let says = vec![
                Says::Refined(text.clone(), 1, Bound::Int(7)),
                Says::Refined("s".to_string(), 5, Bound::Str(text.clone())),
                message(text),
            ];
            plans.push(plan(&format!("long {number} {before}"), 7, says));
        }
        let mut says = Vec::new();
        for end in [BUFFER, BUFFER - OPENING.len()] {
            for before in 0..=4 {
                let name = "b".repeat(end - FAILED - before);
                let name = format!("{name}{scalar}");
                says.push(Says::Refined(name.clone(), 2, Bound::Int(1)));
                says.push(message(name));
            }
        }
        plans.push(plan(&format!("buffer {number}"), 8, says));
    }
    plans
}

/// Every scalar that prints as `?`, and the two behind them: in a callee, a
/// message, a parameter and a text that one is compared with, alone, among others
/// and in the last column; and all of them in one text.
pub fn low() -> Vec<Plan> {
    let mut plans = Vec::new();
    let said = |name: String, text: String| {
        let refined = |name: &str, operator, bound| Says::Refined(name.into(), operator, bound);
        vec![
            message(text.clone()),
            refined("s", 5, Bound::Str(text)),
            refined(&name, 5, Bound::Int(1)),
            refined(&name, 6, Bound::Own),
        ]
    };
    let scalars = (0..=LOW + 1).map(char::from);
    for scalar in scalars.clone() {
        let last = |columns: usize| format!("{}{scalar}b", "b".repeat(columns - 1));
        let among = format!("b{scalar}\u{e9}{scalar}{scalar}\u{10ffff}");
        for text in [scalar.to_string(), among, repeated(scalar, MESSAGE + 1)] {
            plans.push(plan(&text, 11, said(text.clone(), text.clone())));
        }
        let mut says = said(last(MESSAGE - FAILED), last(MESSAGE));
        // s == "..." has six columns before the text.
        let text = last(MESSAGE - FAILED - 6);
        says.push(Says::Refined("s".to_string(), 5, Bound::Str(text)));
        plans.push(plan(&last(CALLEE), 12, says));
    }
    let all: Vec<char> = scalars.collect();
    for part in all.windows(CALLEE) {
        let part: String = part.iter().collect();
        plans.push(plan(&part, 13, said(part.clone(), all.iter().collect())));
    }
    plans
}

/// All small plans of which some are stored, list by list.
pub fn plans() -> [Vec<Plan>; 7] {
    [lengths(), turns(), pairs(), spans(), requires(), refinements(), long()]
}

/// So many reports, of as many calls or of one call.
pub fn sized(count: usize, of_one: bool) -> Image {
    let says =
        |count: usize| (0..count).map(|number| message(format!("report {number}"))).collect();
    let spans = |count: usize| (0..count as u32).map(|call| call * 1_000).collect();
    let (spans, says) = if of_one { (vec![9], says(count)) } else { (spans(count), says(1)) };
    boards(&[Plan { callee: "counted".to_string(), spans, says }]).remove(0)
}

/// As many calls as there can be, of which those of these numbers alone have a
/// report.
pub fn numbered(numbers: &[usize]) -> Image {
    let mut board = Board::new(1);
    board.put(&Plan { callee: "f".to_string(), spans: vec![], says: vec![message("of a number")] });
    for call in 0..LIMITS[8] {
        let callee = if numbers.contains(&call) { "f" } else { "g" };
        board.stranger(callee, call as u32);
    }
    board.finished()
}

/// Two functions of one name, each with contracts: the later one is the callee
/// of every call, also of those that are like the earlier one.
pub fn twice() -> Image {
    let mut board = Board::new(1);
    let refined = |name: &str, bound| Says::Refined(name.to_string(), 5, bound);
    let mut put = |spans: &[u32], says: Vec<Says>| {
        let plan = Plan { callee: "twice".to_string(), spans: spans.to_vec(), says };
        assert!(board.put_again(&plan), "no room");
    };
    put(&[40, 30], vec![message("of the earlier"), refined("earlier", Bound::Int(1))]);
    put(&[20, 10], vec![refined("later", Bound::Int(5)), message("of the later")]);
    board.finished()
}

/// Calls of three functions by turns, the later the call the smaller its span.
pub fn descending() -> Image {
    let mut board = Board::new(1);
    for (callee, spans) in [("one", vec![u32::MAX, 1_000_000]), ("two", vec![]), ("three", vec![])]
    {
        let says = vec![message(format!("of {callee}")), Says::Violated];
        board.put(&Plan { callee: callee.to_string(), spans, says });
    }
    let turns = ["three", "one", "two", "two", "one", "three", "one", "none", "three"];
    for (turn, callee) in turns.iter().enumerate() {
        board.stranger(callee, 999 - 111 * turn as u32);
    }
    board.finished()
}

/// All listed images, the largest last.
pub fn listed() -> Vec<Image> {
    let plans = plans().into_iter().chain([low()]);
    let mut images: Vec<Image> = plans.flat_map(|plans| boards(&plans)).collect();
    images.extend([twice(), descending()]);
    for count in COUNTS {
        images.extend([false, true].map(|of_one| sized(count, of_one)));
    }
    images.extend([255, 256].map(|count| sized(count, false)));
    images.extend([numbered(&[]), numbered(&[0, 9, 10, 99, 100, 255])]);
    images.push(numbered(&(0..LIMITS[8]).collect::<Vec<usize>>()));
    images.extend([longest_output(), widest()]);
    images
}

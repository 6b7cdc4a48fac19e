//! A guard that has its condition itself instead of a copy: no run shows it.

use rlimg::decode::decode;
use rlimg::encode::encode;
use rlimg::image::{Image, Value, WORK};
use rlimg::lower::{answer, Call, ROOM};
use rlimg::rng::Rng;
use rlimg::run::{premises_hold, Program, Value as Argument};
use rlimg::runs::{self, Run};
use rlimg::schema::{self, Section, Sort};

const UNARY: u8 = 33;
const BANG: u64 = 5;

/// Two expressions that are alike.
fn same(image: &Image, one: u16, other: u16) -> bool {
    let [one, other] = [one, other].map(|node| &image.of(Section::Expression)[usize::from(node)]);
    let sorts = schema::of_kind(one.kind).expect("a kind of the format").sorts;
    let mut fields = sorts.iter().zip(one.values.iter().zip(&other.values));
    one.kind == other.kind
        && fields.all(|(sort, pair)| match pair {
            (Value::Number(one), Value::Number(other)) if *sort == Sort::Node => {
                same(image, *one as u16, *other as u16)
            }
            (Value::Range(one, count), Value::Range(other, size)) if sort.is_list() => {
                let list = |first, count| image.list(first, count).expect("a list of the image");
                let mut pairs = list(*one, *count).iter().zip(list(*other, *size)).enumerate();
                let alike = |position, one: u16, other: u16| match sort.holds_node(position) {
                    true => same(image, one, other),
                    false => one == other,
                };
                count == size && pairs.all(|(at, (one, other))| alike(at, *one, *other))
            }
            (one, other) => one == other,
        })
}

/// The lowered image with the conditions of its clauses in the guards.
fn sharing(image: &Image, lowered: &Image) -> Image {
    let conditions: Vec<u64> =
        image.of(Section::Clause).iter().map(|clause| clause.number(0)).collect();
    let mut shared = lowered.clone();
    let before = image.of(Section::Expression).len();
    for (number, node) in lowered.of(Section::Expression).iter().enumerate().skip(before) {
        if node.kind != UNARY || node.number(1) != BANG {
            continue;
        }
        let copied = |condition: &&u64| same(lowered, **condition as u16, node.number(2) as u16);
        if let Some(condition) = conditions.iter().find(copied) {
            shared.of_mut(Section::Expression)[number].values[2] = Value::Number(*condition);
        }
    }
    shared
}

#[test]
fn a_shared_condition_runs_alike_and_has_other_bytes() {
    let (mut rng, mut other) = (Rng::new(12), 0);
    for size in (0..2_000).map(|number| [1, 2, 4, 6][number % 4]) {
        let Run { image, call } = runs::contracted(&mut rng, size);
        let function = call.function;
        let answered = answer(&encode(&image), Call { work: WORK, function, room: ROOM });
        let Some(bytes) = answered.ok().filter(|_| premises_hold(&image, function as usize)) else {
            continue;
        };
        let shared = sharing(&image, &decode(&bytes).expect("an accepted image"));
        other += usize::from(encode(&shared) != bytes);
        let values = Argument::list(&call.words).expect("words of values");
        for budget in [2_000, rng.below(40) as u32, rng.below(200) as u32] {
            let run = Program::new(&shared).plainly(function, &values, budget);
            assert_eq!(Program::new(&image).reading(function, &values, budget), run);
        }
    }
    assert!(other > 1_000, "{other}");
}

//! Images whose functions are to be lowered.

pub mod limits;
pub mod listed;

use crate::builder::Builder;
use crate::image::{Image, Value, WORK};
use crate::lower::{Call, EXPRESSION_HEIGHT, ROOM, STATEMENT_HEIGHT};
use crate::random::{self, Shape};
use crate::rng::Rng;
use crate::runs;
use crate::schema::Section;

/// An accepted image with functions, most of them with contracts.
pub fn any(rng: &mut Rng) -> Image {
    match rng.below(20) {
        0..=8 => {
            let size = rng.pick(&[1, 2, 3, 4, 6, 9]);
            runs::contracted(rng, size).image
        }
        9 => runs::any(rng, 3).image,
        10 if rng.one_in(3) => {
            let (size, deep) = rng.pick(&[(40, false), (90, true), (150, true)]);
            random::image(rng, Shape::of(size, deep))
        }
        _ => {
            let size = rng.pick(&[3, 3, 6, 6, 6, 9, 9, 12, 24]);
            let heights = [EXPRESSION_HEIGHT, STATEMENT_HEIGHT];
            let shape = Shape { size, deep: rng.one_in(3), heights };
            random::image(rng, shape)
        }
    }
}

/// A call for each function of an image, and now and then one that is refused.
pub fn calls(rng: &mut Rng, image: &Image) -> Vec<Call> {
    let functions = image.of(Section::Function).len() as u32;
    let all = (0..functions).map(|function| Call { work: WORK, function, room: ROOM });
    let mut calls: Vec<Call> = all.collect();
    for call in &mut calls {
        call.work += rng.pick(&[0, 0, 0, 700]);
        call.room += rng.pick(&[0, 0, 0, 1, 5_000]);
    }
    if rng.one_in(4) {
        let function = rng.pick(&[0, functions, functions, functions + 1, 1 << 16, u32::MAX]);
        let work = rng.pick(&[WORK, WORK, WORK, WORK, WORK - 1, 0]);
        let room = rng.pick(&[ROOM, ROOM - 1, ROOM - 1, 0]);
        calls.push(Call { work, function, room });
    }
    calls
}

/// Gives a function clauses, each a condition and its message.
pub fn with_clauses(
    mut image: Image,
    function: usize,
    requires: &[(u16, Option<u16>)],
    ensures: &[(u16, Option<u16>)],
) -> Image {
    let mut builder = Builder::default();
    std::mem::swap(&mut builder.image, &mut image);
    let ranges = [requires, ensures].map(|clauses| {
        let first = builder.image.counts()[6] as u16;
        for (condition, message) in clauses {
            builder.clause(*condition, *message);
        }
        Value::Range(first, clauses.len() as u16)
    });
    let mut image = builder.image;
    image.of_mut(Section::Function)[function].values[5..].copy_from_slice(&ranges);
    image
}

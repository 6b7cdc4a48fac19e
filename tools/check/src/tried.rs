//! The images that more than one comparison tries.

use oracle::{marked, pairs, picked, tables};
use rlimg::builder::Builder;
use rlimg::damage::{edge_values, overwrite, NOT_UTF8};
use rlimg::encode::{encode, places};
use rlimg::image::{Image, EXPRESSION_HEIGHT, LIMITS};
use rlimg::random::{self, Shape};
use rlimg::rng::Rng;
use rlimg::schema::{Section, ROWS};
use rlimg::{edges, hostile, rules, runs};

/// Images at the limits, and one past them.
pub fn limits() -> Vec<Vec<u8>> {
    let mut images: Vec<Vec<u8>> = Vec::new();
    for (position, limit) in LIMITS.into_iter().enumerate() {
        images.extend([0, 1].map(|over| encode(&edges::with_count(position, limit + over))));
    }
    images.extend((67..76).map(|height| encode(&edges::expression_chain(height))));
    images.extend((35..44).map(|height| encode(&edges::statement_chain(height))));
    let largest = encode(&edges::largest());
    images.push(largest[..65_534].to_vec());
    images.push([&largest[..], &[0]].concat());
    images.push(largest);
    images.extend([vec![0; 65_535], vec![]]);
    images.extend((65_536..65_544).map(|length| vec![1; length]));
    images
}

/// Each kind of record, with each edge value at each place and cut after each
/// byte.
pub fn kinds(seed: u64) -> impl Iterator<Item = Vec<u8>> {
    ROWS.iter().flat_map(move |row| {
        let image = random::image_with(&mut Rng::new(seed ^ u64::from(row.kind)), row);
        let bytes = encode(&image);
        let mut all: Vec<Vec<u8>> =
            (0..=bytes.len()).map(|length| bytes[..length].to_vec()).collect();
        for (at, what) in places(&image) {
            for value in edge_values(&image, at, what) {
                let mut changed = bytes.clone();
                overwrite(&mut changed, at, &value);
                all.push(changed);
            }
        }
        all
    })
}

/// Each bad sequence alone, and at each distance from the text's ends.
pub fn bad_texts() -> impl Iterator<Item = Vec<u8>> {
    let places = || (0..20).flat_map(|before| [(before, 0), (before, 1), (before, 17)]);
    NOT_UTF8.into_iter().flat_map(move |bad| {
        places().flat_map(move |(before, after)| {
            let mut builder = Builder::new(1);
            let around = |length: usize| "a\u{e9}".repeat(length).into_bytes();
            builder.image.text = [&around(before)[..], bad, &around(after)].concat();
            builder.image.texts.push((0, builder.image.text.len() as u16));
            let whole = encode(&builder.image);
            builder.image.texts = vec![(0, 3 * before as u16)];
            [whole, encode(&builder.image)]
        })
    })
}

/// Any image for a reader.
pub fn to_read(rng: &mut Rng) -> Image {
    let mut shape = Shape::of(rng.pick(&[1, 3, 3, 6, 6, 12, 12, 25, 40]), rng.one_in(4));
    if rng.one_in(40) {
        shape = Shape::of(rng.pick(&[200, 400, 900]), rng.one_in(2));
    }
    if shape.deep && rng.one_in(3) {
        shape.size = 150;
        shape.heights = [70, 38];
    }
    random::image(rng, shape)
}

/// The lists of small images whose calls are proved, and some that are too tall.
pub fn proved() -> impl Iterator<Item = Image> {
    let marked = marked::cases().into_iter().map(|case| case.image);
    let images = marked.chain(tables::images()).chain(picked::images()).chain(pairs::images());
    let images = images.chain(runs::texts::images());
    images.chain((67..76).map(edges::expression_chain)).chain((35..44).map(edges::statement_chain))
}

/// Shared sums, ever taller, a deep one, a call that asks for much work, and
/// one with as many and as long messages as can be.
pub fn slow() -> Vec<Image> {
    let heights = (4..=usize::from(EXPRESSION_HEIGHT)).step_by(4);
    let mut images: Vec<Image> = heights.map(hostile::doubled).collect();
    images.extend([hostile::deep_tree(), hostile::worst_call(), hostile::longest_output()]);
    let longest = images.last_mut().expect("the longest output");
    longest.of_mut(Section::Call).truncate(1);
    images
}

/// Any image for a prover.
pub fn to_prove(rng: &mut Rng) -> Image {
    if rng.one_in(12) {
        let shape = Shape::of(rng.pick(&[3, 6, 12, 40]), rng.one_in(2));
        return random::image(rng, shape);
    }
    let size = rng.pick(&[1, 1, 1, 2, 2, 2, 4, 4, 12]);
    rules::image(rng, size)
}

//! `vectors_prove [OUT_DIR]`: a stored list of small images with the independent
//! prover's reports, which are the original's where it is here. `stdin` has, for
//! each image, its length and that of the work slice (u32 each) and the image;
//! `stdout` has a line for each report, `CALL SPAN MESSAGE`, and a line `--`
//! behind each image's.

use oracle::{HERE, independent_lines, marked, tables};
use rlimg::decode::decode;
use rlimg::encode::encode;
use rlimg::image::{Image, WORK};
use rlimg::rng::Rng;
use rlimg::{rules, text};
use std::path::Path;

const SAMPLE: &str = include_str!("../../../../samples/flow.txt");
/// How many images are generated, and how many of them have no reports.
const GENERATED: usize = 170;
const SILENT: usize = 10;

fn images() -> Vec<Image> {
    let mut images = vec![text::build(SAMPLE).expect("the sample")];
    images.extend(marked::cases().into_iter().map(|case| case.image));
    images.extend(tables::images());
    images.extend(generated());
    images
}

fn generated() -> Vec<Image> {
    let mut rng = Rng::new(1);
    let (mut images, mut silent) = (Vec::new(), 0);
    while images.len() < GENERATED {
        let image = rules::image(&mut rng, 1 + images.len() % 3);
        let is_silent = lines(&image).is_empty();
        if !is_silent || silent < SILENT {
            silent += usize::from(is_silent);
            images.push(image);
        }
    }
    images
}

/// The reports, which the original must have too.
fn lines(image: &Image) -> String {
    let lines = independent_lines(image);
    assert!(!HERE || oracle::lines(image) == lines, "the original does not have:\n{lines}");
    lines
}

fn main() -> std::io::Result<()> {
    let folder = std::env::args().nth(1).unwrap_or("vectors_prove".to_string());
    let folder = Path::new(&folder);
    let images = images();
    let (mut input, mut output) = (Vec::new(), String::new());
    for image in &images {
        let bytes = encode(image);
        output.push_str(&lines(&decode(&bytes).expect("accepted")));
        output.push_str("--\n");
        input.extend((bytes.len() as u32).to_le_bytes());
        input.extend((WORK as u32).to_le_bytes());
        input.extend(bytes);
    }
    std::fs::create_dir_all(folder)?;
    std::fs::write(folder.join("stdin"), &input)?;
    std::fs::write(folder.join("stdout"), &output)?;
    println!("vectors_prove: {} cases, {} bytes", images.len(), input.len());
    println!("vectors_prove: {}", oracle::compared("all reports"));
    Ok(())
}

//! `vectors [OUT_DIR]`: a stored list of cases with the independent reader's
//! answers. `stdin` has, for each case, the lengths of image and work slice
//! (u32 each) and the image; `stdout` has a line for each case, either
//! `NUMBER PLACE` or `0 0`, the expressions' heights, `|`, the statements'.

use rlimg::builder::{Builder, Operand};
use rlimg::damage::{edge_values, overwrite, NOT_UTF8};
use rlimg::encode::{encode, places, What};
use rlimg::image::{Image, LIMITS, WORK};
use rlimg::random;
use rlimg::reader::{read, Refusal};
use rlimg::rng::Rng;
use rlimg::schema::{Row, ROWS};
use rlimg::{edges, text};
use std::collections::HashSet;
use std::fmt::Write;
use std::path::Path;

const SAMPLE: &str = include_str!("../../../../samples/flow.txt");

#[derive(Default)]
struct Cases {
    list: Vec<(Vec<u8>, usize)>,
    known: HashSet<(Vec<u8>, usize)>,
}

impl Cases {
    fn add(&mut self, image: Vec<u8>, work: usize) {
        if self.known.insert((image.clone(), work)) {
            self.list.push((image, work));
        }
    }

    /// The sample whole, with each work length, cut and continued.
    fn sample(&mut self) {
        let bytes = encode(&text::build(SAMPLE).expect("the sample"));
        for work in [WORK, 0, WORK - 1, WORK + 1, 9_000] {
            self.add(bytes.clone(), work);
        }
        for length in [0, 1, 4, 22, 23, 24, bytes.len() - 1] {
            self.add(bytes[..length].to_vec(), WORK);
        }
        for more in 1..3 {
            self.add([&bytes[..], &vec![0; more]].concat(), WORK);
        }
    }

    /// A record of each kind: accepted, refused at each of its fields that
    /// can be, and cut in one of them.
    fn kinds(&mut self) {
        for row in &ROWS {
            let image = random::image_with(&mut Rng::new(u64::from(row.kind)), row);
            let bytes = encode(&image);
            let fields = fields_of_last(&image, row);
            for (at, what) in &fields {
                for value in refused_values(&image, &bytes, *at, *what) {
                    self.add(value, WORK);
                }
            }
            let (at, what) = fields[usize::from(row.kind) % fields.len()];
            if let What::Field(_, _, sort) = what {
                self.add(bytes[..at + sort.width() - 1].to_vec(), WORK);
            }
            self.add(bytes, WORK);
        }
    }

    /// Refinements and operand sorts with operands at the edges.
    fn parameters(&mut self) {
        let operands = [0, 1, 2, 0x1_0000, i64::MIN];
        for (sort, operand) in (0..6).flat_map(|sort| operands.map(|operand| (sort, operand))) {
            let mut builder = Builder::new(4);
            let name = builder.text("");
            builder.text("id");
            builder.parameter(name, Some((1 + sort % 6, Operand::Integer(operand))));
            for refinement in [0, 1 + sort % 6] {
                let mut bytes = encode(&builder.image);
                let end = bytes.len();
                overwrite(&mut bytes, end - 10, &[refinement as u8, sort as u8]);
                if refinement == 0 || operand > 0 {
                    self.add(bytes, WORK);
                }
            }
        }
    }

    /// Each bad sequence inside a text, and good ones at the edges.
    fn texts(&mut self) {
        let good = ["\u{7f}\u{80}", "\u{7ff}\u{800}", "\u{d7ff}\u{e000}", "\u{ffff}\u{10000}"];
        let good = good.into_iter().map(str::as_bytes).chain(["\u{10ffff}".as_bytes()]);
        for bytes in NOT_UTF8.into_iter().chain(good) {
            let mut builder = Builder::new(6);
            builder.image.text = [b"id ", bytes, b"."].concat();
            let length = builder.image.text.len() as u16;
            builder.image.texts = vec![(0, 3), (0, length)];
            self.add(encode(&builder.image), WORK);
        }
        let mut builder = Builder::new(6);
        builder.text("\u{20ac}\u{e9}");
        let (at, what) = (24 + 5, What::TextRange);
        for range in edge_values(&builder.image, at, what) {
            let mut bytes = encode(&builder.image);
            overwrite(&mut bytes, at, &range);
            self.add(bytes, WORK);
        }
    }

    /// An image as it is, and with its records three and eight bytes further on.
    fn add_shifted(&mut self, mut image: Image) {
        self.add(encode(&image), WORK);
        image.text = b"ab ".to_vec();
        self.add(encode(&image), WORK);
        image.texts = vec![(0, 2)];
        self.add(encode(&image), WORK);
    }

    /// Each limit that a small image can pass, and kinds of other sections.
    fn limits(&mut self) {
        for (position, limit) in LIMITS.into_iter().enumerate() {
            let mut header = encode(&Image::default());
            overwrite(&mut header, 5 + 2 * position, &(limit as u16 + 1).to_le_bytes());
            self.add(header, WORK);
            let image = edges::with_count(position, 2);
            let mut kinds = places(&image).into_iter().filter(|(_, what)| *what == What::Kind);
            let (last, _) = kinds.next_back().expect("the header's kind");
            for kind in [84, if position == 3 { 64 } else { 16 }] {
                let mut bytes = encode(&image);
                bytes[last] = kind;
                self.add(bytes, WORK);
            }
        }
        for height in 67..70 {
            self.add_shifted(edges::expression_chain(height));
        }
        for height in 35..38 {
            self.add_shifted(edges::statement_chain(height));
        }
        for position in 0..LIMITS.len() {
            let mut bytes = encode(&edges::with_count(position, 1));
            bytes.push(0);
            self.add(bytes, WORK);
        }
        self.add(vec![1; 65_536], WORK);
    }
}

/// The places of the fields of the last record of the row's section.
fn fields_of_last(image: &Image, row: &Row) -> Vec<(usize, What)> {
    let last = image.of(row.section).len() - 1;
    let of_last = |what: &What| matches!(what, What::Field(section, index, _) if *section == row.section && *index == last);
    places(image).into_iter().filter(|(_, what)| of_last(what)).collect()
}

/// Copies refused for each number at a place, at most two for a number.
fn refused_values(image: &Image, bytes: &[u8], at: usize, what: What) -> Vec<Vec<u8>> {
    let mut found: Vec<(u32, Vec<u8>)> = Vec::new();
    for value in edge_values(image, at, what) {
        let mut changed = bytes.to_vec();
        overwrite(&mut changed, at, &value);
        if let Err(refusal) = read(&changed, WORK) {
            let often = found.iter().filter(|(number, _)| *number == refusal.number).count();
            if often < 1 + usize::from(refusal.number == 7 || is_range(what)) {
                found.push((refusal.number, changed));
            }
        }
    }
    found.into_iter().map(|(_, changed)| changed).collect()
}

fn is_range(what: What) -> bool {
    matches!(what, What::Field(_, _, sort) if sort.is_range())
}

fn answer(image: &[u8], work: usize) -> String {
    let accepted = match read(image, work) {
        Err(Refusal { number, place }) => return format!("{number} {place}\n"),
        Ok(accepted) => accepted,
    };
    let mut line = String::from("0 0");
    for height in accepted.expression_heights {
        write!(line, " {height}").unwrap();
    }
    line.push_str(" |");
    for height in accepted.statement_heights {
        write!(line, " {height}").unwrap();
    }
    line + "\n"
}

fn main() -> std::io::Result<()> {
    let folder = std::env::args().nth(1).unwrap_or("vectors".to_string());
    let folder = Path::new(&folder);
    let mut cases = Cases::default();
    cases.sample();
    cases.kinds();
    cases.parameters();
    cases.texts();
    cases.limits();
    let (mut input, mut output) = (Vec::new(), String::new());
    for (image, work) in &cases.list {
        input.extend((image.len() as u32).to_le_bytes());
        input.extend((*work as u32).to_le_bytes());
        input.extend(image);
        output.push_str(&answer(image, *work));
    }
    std::fs::create_dir_all(folder)?;
    std::fs::write(folder.join("stdin"), &input)?;
    std::fs::write(folder.join("stdout"), &output)?;
    println!("vectors: {} cases, {} bytes", cases.list.len(), input.len());
    Ok(())
}

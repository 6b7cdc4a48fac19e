//! `vectors_lower [OUT_DIR]`: a stored list of functions with what the
//! independent lowering makes of them. `stdin` has, for each case, the lengths
//! of image, work slice and output slice and the function (u32 each), and the
//! image. `stdout` has a line for each case: `refused NUMBER at PLACE`, or
//! `lowered LENGTH BYTES` with two hexadecimal digits a byte.

use rlimg::damage::damage;
use rlimg::encode::encode;
use rlimg::image::{Image, WORK};
use rlimg::lower::{answer, Call, ROOM};
use rlimg::lowerings::limits::{self, filled, growth, hostile, small};
use rlimg::lowerings::{any, calls, listed};
use rlimg::rng::Rng;
use std::fmt::Write;
use std::path::Path;

/// How many functions are generated, and the most bytes of their images.
const GENERATED: usize = 36;
const LARGE: usize = 320;
/// The most bytes of a hostile image.
const HOSTILE: usize = 2_500;

const CALL: Call = Call { work: WORK, function: 0, room: ROOM };

#[derive(Default)]
struct Cases {
    count: usize,
    input: Vec<u8>,
    output: String,
}

impl Cases {
    fn add(&mut self, image: &[u8], call: Call) {
        self.count += 1;
        let lengths = [image.len(), call.work, call.room].map(|length| length as u32);
        for number in lengths.into_iter().chain([call.function]) {
            self.input.extend(number.to_le_bytes());
        }
        self.input.extend(image);
        self.output.push_str(&line(image, call));
    }

    fn image(&mut self, image: &Image) {
        self.add(&encode(image), CALL);
    }

    /// Every kind of expression, statement and contract.
    fn listed(&mut self) {
        for image in listed::all() {
            self.image(&image);
        }
        for image in listed::contracts() {
            for function in [1, 2] {
                self.add(&encode(&image), Call { function, ..CALL });
            }
        }
    }

    /// Heights, sharing, and one record too many.
    fn limits(&mut self) {
        for (_, image) in limits::heights() {
            self.image(&image);
        }
        for image in hostile().iter().filter(|image| encode(image).len() < HOSTILE) {
            self.image(image);
        }
        let functions = small();
        let needed = growth(&functions[0], 0, 1);
        for (way, left) in [(1, needed), (1, needed - 1)] {
            self.image(&filled(&functions[0], way, left).expect("room"));
        }
        for way in [2, 4] {
            let needed = growth(&functions[7], 0, way);
            self.image(&filled(&functions[7], way, needed - 1).expect("room"));
        }
    }

    /// Each refusal, and two at a time.
    fn refusals(&mut self) {
        let bytes = encode(&small()[0]);
        for function in [1, 1 << 16, u32::MAX] {
            self.add(&bytes, Call { function, ..CALL });
            self.add(&bytes, Call { function, room: 0, ..CALL });
        }
        for (work, room) in [(WORK - 1, ROOM), (0, 0), (WORK, ROOM - 1), (WORK, 0)] {
            self.add(&bytes, Call { work, room, ..CALL });
        }
        for (work, room) in [(WORK + 1, ROOM), (WORK, ROOM + 1)] {
            self.add(&bytes, Call { work, room, ..CALL });
        }
        self.add(&bytes[..bytes.len() - 1], Call { room: 0, ..CALL });
        self.add(&[&bytes[..], &[0]].concat(), Call { function: 1, ..CALL });
        self.add(&[], CALL);
    }

    fn generated(&mut self) {
        let (mut rng, mut made) = (Rng::new(3), 0);
        while made < GENERATED {
            let image = any(&mut rng);
            let calls = calls(&mut rng, &image);
            let Some(call) = calls.first() else { continue };
            let bytes = encode(&image);
            if bytes.len() > LARGE || answer(&bytes, *call).is_ok_and(|made| made == bytes) {
                continue;
            }
            made += 1;
            self.add(&bytes, *call);
            if made % 9 == 0 {
                self.add(&damage(&mut rng, &image), *call);
            }
        }
    }
}

fn line(image: &[u8], call: Call) -> String {
    match answer(image, call) {
        Err(refusal) => format!("refused {} at {}\n", refusal.number, refusal.place),
        Ok(bytes) => {
            let mut line = format!("lowered {} ", bytes.len());
            bytes.iter().for_each(|byte| write!(line, "{byte:02x}").expect("a string"));
            line + "\n"
        }
    }
}

fn main() -> std::io::Result<()> {
    let folder = std::env::args().nth(1).unwrap_or("vectors_lower".to_string());
    let folder = Path::new(&folder);
    let mut cases = Cases::default();
    cases.listed();
    cases.limits();
    cases.refusals();
    cases.generated();
    std::fs::create_dir_all(folder)?;
    std::fs::write(folder.join("stdin"), &cases.input)?;
    std::fs::write(folder.join("stdout"), &cases.output)?;
    println!(
        "vectors_lower: {} cases, {} bytes, {} bytes of answers",
        cases.count,
        cases.input.len(),
        cases.output.len()
    );
    Ok(())
}

//! `vectors_run [OUT_DIR]`: a stored list of runs with the independent runner's
//! answers. `stdin` has, for each case, the lengths of image and work slice, the
//! function, the budget and the number of the values' words (u32 each), the
//! image, and the words (u64 each). `stdout` has a line for each case: `refused
//! NUMBER at PLACE`, `returned SORT PAYLOAD steps N`, `stopped SORT PAYLOAD steps
//! N`, `fault NUMBER steps N` or `spent steps N`.

mod bodies;
mod words;

use rlimg::code;
use rlimg::damage::damage;
use rlimg::encode::encode;
use rlimg::image::{Image, WORK};
use rlimg::rng::Rng;
use rlimg::run::{answer, Call, BUDGET};
use rlimg::runs::{self, Run};
use std::collections::HashMap;
use std::path::Path;

/// How many functions are generated, and the most bytes of their images.
const GENERATED: usize = 60;
const LARGE: usize = 600;
/// Runs that end the same way are not listed more often.
const OFTEN: usize = 3;
/// A run that takes fewer or more steps is not listed.
const SHORT: u64 = 12;
const LONG: u32 = 3_000;

fn call(words: &[u64], budget: u32) -> Call {
    Call { work: WORK, function: 0, words: words.to_vec(), budget }
}

#[derive(Default)]
struct Cases {
    count: usize,
    input: Vec<u8>,
    output: String,
}

impl Cases {
    fn add(&mut self, image: &[u8], call: &Call) {
        self.count += 1;
        let lengths = [image.len(), call.work].map(|length| length as u32);
        let numbers = [call.function, call.budget, call.words.len() as u32];
        for number in lengths.into_iter().chain(numbers) {
            self.input.extend(number.to_le_bytes());
        }
        self.input.extend(image);
        self.input.extend(call.words.iter().flat_map(|word| word.to_le_bytes()));
        self.output.push_str(&line(image, call));
    }

    /// A run as far as it goes, then with just enough steps and with one less.
    fn around(&mut self, image: &Image, words: &[u64]) {
        let bytes = encode(image);
        self.add(&bytes, &call(words, BUDGET));
        if let Ok([_, steps, ..]) = answer(&bytes, &call(words, BUDGET)) {
            self.add(&bytes, &call(words, steps as u32));
            if steps > 0 {
                self.add(&bytes, &call(words, steps as u32 - 1));
            }
        }
    }

    /// Bodies of every kind of statement and expression, and of every fault.
    fn bodies(&mut self) {
        for image in bodies::around() {
            self.around(&image, &[]);
        }
        for (image, words) in bodies::once() {
            self.add(&encode(&image), &call(&words, BUDGET));
        }
    }

    /// Each refusal, and two at a time.
    fn refusals(&mut self) {
        let image = code::image(&["a"], |code| {
            let a = code.name("a");
            vec![code.bare(a)]
        });
        let (bytes, missing) = (encode(&image), image.texts.len() as u64);
        for words in [&[3, missing - 1][..], &[19, 0], &[3, missing], &[11, missing], &[19, 65_535]]
        {
            self.add(&bytes, &call(words, BUDGET));
            self.add(&bytes, &call(words, BUDGET + 1));
        }
        for words in [&[0][..], &[0, 1], &[5, 0], &[24, 0], &[11, 65_536], &[4, 2], &[1 << 32, 0]] {
            self.add(&bytes, &call(words, BUDGET));
        }
        for words in [&[][..], &[0; 4], &[3, missing, 0, 0]] {
            self.add(&bytes, &call(words, BUDGET + 1));
            self.add(&bytes, &Call { function: 1, ..call(words, BUDGET) });
        }
        for function in [1, 1 << 16, u32::MAX] {
            self.add(&bytes, &Call { function, ..call(&[0, 0], 5) });
        }
        for (work, words) in [(WORK - 1, &[][..]), (0, &[7]), (WORK + 1, &[1, 2])] {
            self.add(&bytes, &Call { work, ..call(words, 5) });
        }
        for count in [16, 17] {
            let bytes = encode(&code::image(&vec!["a"; count], |_| vec![]));
            self.add(&bytes, &call(&vec![0; 2 * count], BUDGET));
        }
        self.add(&bytes[..bytes.len() - 1], &call(&[], BUDGET + 1));
        self.add(&[], &call(&[], 0));
    }

    /// Generated functions, with budgets below, at and above what they take.
    fn generated(&mut self) {
        let (mut rng, mut seen, mut made) = (Rng::new(3), HashMap::new(), 0);
        while made < GENERATED {
            let size = rng.pick(&[1, 2, 3]);
            let Run { image, call } = runs::any(&mut rng, size);
            let bytes = encode(&image);
            let Ok([ending, steps, first, _]) =
                answer(&bytes, &Call { budget: LONG, ..call.clone() })
            else {
                continue;
            };
            let often: &mut usize = seen.entry((ending, first)).or_default();
            if bytes.len() > LARGE || steps < SHORT || steps == u64::from(LONG) || *often == OFTEN {
                continue;
            }
            *often += 1;
            made += 1;
            let steps = steps as u32;
            let budget = rng.pick(&[steps, steps, steps + 1, BUDGET, steps - 1, steps / 2]);
            self.add(&bytes, &Call { budget, ..call.clone() });
            if made % 10 == 0 {
                self.add(&damage(&mut rng, &image), &Call { budget: LONG, ..call });
            }
        }
    }
}

fn line(image: &[u8], call: &Call) -> String {
    match answer(image, call) {
        Err(refusal) => format!("refused {} at {}\n", refusal.number, refusal.place),
        Ok([1, steps, sort, payload]) => format!("returned {sort} {payload} steps {steps}\n"),
        Ok([2, steps, sort, payload]) => format!("stopped {sort} {payload} steps {steps}\n"),
        Ok([3, steps, fault, _]) => format!("fault {fault} steps {steps}\n"),
        Ok([_, steps, ..]) => format!("spent steps {steps}\n"),
    }
}

fn main() -> std::io::Result<()> {
    let folder = std::env::args().nth(1).unwrap_or("vectors_run".to_string());
    let folder = Path::new(&folder);
    let mut cases = Cases::default();
    cases.bodies();
    cases.refusals();
    cases.words();
    cases.generated();
    std::fs::create_dir_all(folder)?;
    std::fs::write(folder.join("stdin"), &cases.input)?;
    std::fs::write(folder.join("stdout"), &cases.output)?;
    println!("vectors_run: {} cases, {} bytes", cases.count, cases.input.len());
    Ok(())
}

//! `vectors_pages [OUT_DIR]`: a stored list of images with the independent pages
//! of their reports. `stdin` has, for each case, the lengths of image, work slice
//! and page slice (u32 each), and the image. `stdout` has, for each case, a line
//! `refused NUMBER at PLACE`, or a line `bytes NUMBER` and then the pages.

use rlimg::damage::damage;
use rlimg::encode::encode;
use rlimg::image::{Image, WORK};
use rlimg::pages::images::{any_stored, boards, plans, sized, Plan, Says};
use rlimg::pages::{answer, pages, Call};
use rlimg::rng::Rng;
use std::path::Path;

/// The longest page slice that is replayed.
const MOST: usize = 16_384;
/// How many images are generated, the most bytes of one, and of its pages.
const GENERATED: usize = 6;
const LARGE: usize = 2_500;
const LONG: usize = 5_000;
/// Every so many of a list's plans without long texts are stored.
const SOME: [usize; 7] = [5, 3, 16, 1, 1, 2, 3];
/// From so many bytes on a text is long; one plan of such is stored.
const LONG_TEXT: usize = 700;

#[derive(Default)]
struct Cases {
    count: usize,
    input: Vec<u8>,
    output: Vec<u8>,
}

impl Cases {
    fn add(&mut self, image: &[u8], call: Call) {
        assert!(call.room <= MOST, "a page slice of {} bytes", call.room);
        self.count += 1;
        for length in [image.len(), call.work, call.room] {
            self.input.extend((length as u32).to_le_bytes());
        }
        self.input.extend(image);
        let whole = answer(image, call);
        match whole.number {
            0 => {
                self.output.extend(format!("bytes {}\n", whole.low).into_bytes());
                self.output.extend(&whole.pages[..whole.low as usize]);
            }
            number => self.output.extend(format!("refused {number} at {}\n", whole.low).bytes()),
        }
    }

    /// With a page slice that is just long enough.
    fn image(&mut self, image: &Image) {
        let bytes = encode(image);
        let room = pages(&bytes).expect("an accepted image").len();
        self.add(&bytes, Call { work: WORK, room });
    }

    /// No page, one and more, full ones and not, each with slices of lengths
    /// around that of the pages.
    fn counts(&mut self) {
        for count in [0, 1, 59, 60, 61, 120] {
            let bytes = encode(&sized(count, count % 2 == 0));
            let exact = pages(&bytes).expect("an accepted image").len();
            self.add(&bytes, Call { work: WORK, room: exact });
            if exact > 0 {
                self.add(&bytes, Call { work: WORK, room: exact - 1 });
                self.add(&bytes, Call { work: WORK, room: 0 });
            }
        }
        let bytes = encode(&sized(0, false));
        self.add(&bytes, Call { work: WORK, room: 100 });
        let bytes = encode(&sized(2, false));
        self.add(&bytes, Call { work: WORK, room: MOST });
    }

    /// Some of the listed plans: texts of each width, `?`s, cuts, spans, defaults
    /// and refinements.
    fn texts(&mut self) {
        for (list, some) in plans().iter().zip(SOME) {
            let kept = list.iter().filter(|plan| longest(plan) < LONG_TEXT).step_by(some);
            let kept: Vec<Plan> = kept.cloned().collect();
            boards(&kept).iter().for_each(|image| self.image(image));
        }
        let mut long = plans().concat().into_iter().filter(|plan| longest(plan) >= LONG_TEXT);
        self.image(&boards(&[long.next_back().expect("a long one")])[0]);
    }

    /// Each refusal, and two at a time.
    fn refusals(&mut self) {
        let bytes = encode(&sized(3, false));
        for (work, room) in [(WORK - 1, 4_380), (0, 0), (WORK - 1, 0), (WORK, 1), (WORK, 4_379)] {
            self.add(&bytes, Call { work, room });
        }
        for (work, room) in [(WORK + 1, 4_380), (WORK, 4_381)] {
            self.add(&bytes, Call { work, room });
        }
        let call = Call { work: WORK, room: 0 };
        self.add(&bytes[..bytes.len() - 1], call);
        self.add(&bytes[..30], call);
        self.add(&[&bytes[..], &[0]].concat(), call);
        self.add(&[], call);
        self.add(&[], Call { work: 0, room: 0 });
    }

    fn generated(&mut self) {
        let (mut rng, mut made) = (Rng::new(3), 0);
        while made < GENERATED {
            let image = any_stored(&mut rng);
            let bytes = encode(&image);
            let room = pages(&bytes).expect("an accepted image").len();
            if bytes.len() > LARGE || room == 0 || room > LONG {
                continue;
            }
            made += 1;
            self.add(&bytes, Call { work: WORK, room: room + rng.below(9) });
            self.add(&damage(&mut rng, &image), Call { work: WORK, room });
        }
    }
}

/// The bytes of the plan's longest text.
fn longest(plan: &Plan) -> usize {
    let said = plan.says.iter().map(|says| match says {
        Says::Message(text) | Says::Refined(text, ..) => text.len(),
        Says::Violated | Says::NoText => 0,
    });
    said.chain([plan.callee.len()]).max().expect("a callee")
}

fn main() -> std::io::Result<()> {
    let folder = std::env::args().nth(1).unwrap_or("vectors_pages".to_string());
    let folder = Path::new(&folder);
    let mut cases = Cases::default();
    cases.counts();
    cases.texts();
    cases.refusals();
    cases.generated();
    std::fs::create_dir_all(folder)?;
    std::fs::write(folder.join("stdin"), &cases.input)?;
    std::fs::write(folder.join("stdout"), &cases.output)?;
    println!(
        "vectors_pages: {} cases, {} bytes, {} bytes of answers",
        cases.count,
        cases.input.len(),
        cases.output.len()
    );
    Ok(())
}

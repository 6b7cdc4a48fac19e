//! `lower_limits`: functions at the limits of lowering and past them, and the
//! deepest ones, by `rl_lower` on a stack of 1 MiB, held against the
//! independent lowering; and the time that hostile sharing takes.

use check::ffi;
use check::lowerings::{compare, Slices};
use check::runs::Case;
use rlimg::encode::encode;
use rlimg::image::{Image, WORK};
use rlimg::lower::{Call, ROOM};
use rlimg::lowerings::limits::{deepest, fitting, heights, hostile, only_lowered};
use std::process::ExitCode;
use std::thread::Builder;
use std::time::Instant;

const STACK: usize = 1 << 20;
/// The most milliseconds that one refusal may take.
const REFUSAL: f64 = 500.0;

/// How many images there are, and how many are refused.
#[derive(Default)]
struct Counts {
    images: usize,
    refused: usize,
}

impl Counts {
    /// Both answer the same, with this number.
    fn agreed(&mut self, image: &Image, number: u32) -> Result<(), String> {
        let (case, call) = (Case::new(encode(image)), Call { work: WORK, function: 0, room: ROOM });
        let answer = compare(&mut Slices::default(), &case, call)?;
        let said = answer.map_or_else(|refusal| refusal.number, |_| 0);
        self.images += 1;
        self.refused += usize::from(said != 0);
        if said != number {
            return Err(format!("image {}: {said}, expected {number}", self.images));
        }
        Ok(())
    }
}

fn all() -> Result<Counts, String> {
    let mut counts = Counts::default();
    for (left, needed, image) in fitting() {
        counts.agreed(&image, if left < needed { 14 } else { 0 })?;
    }
    for (allowed, image) in heights() {
        counts.agreed(&image, if allowed { 0 } else { 12 })?;
    }
    for image in deepest().into_iter().chain(only_lowered()) {
        counts.agreed(&image, 0)?;
    }
    for image in hostile() {
        counts.agreed(&image, 14)?;
    }
    Ok(counts)
}

/// The most milliseconds that a hostile image takes.
fn slowest() -> Result<f64, String> {
    let mut slowest: f64 = 0.0;
    for image in hostile() {
        let (bytes, mut work, mut out) = (encode(&image), vec![0; WORK], vec![0; ROOM]);
        let start = Instant::now();
        ffi::lower(&bytes, &mut work, 0, &mut out);
        slowest = slowest.max(start.elapsed().as_secs_f64() * 1e3);
    }
    if slowest > REFUSAL {
        return Err(format!("hostile sharing takes {slowest:.0} ms"));
    }
    Ok(slowest)
}

fn main() -> ExitCode {
    // A stack that is too small ends the whole program.
    let thread = Builder::new().stack_size(STACK).spawn(all).expect("a thread");
    let counts = thread.join().expect("no panic");
    match counts.and_then(|counts| Ok((counts, slowest()?))) {
        Err(fault) => {
            println!("lower_limits: {fault}");
            ExitCode::FAILURE
        }
        Ok((Counts { images, refused }, slowest)) => {
            println!(
                "lower_limits: {images} images on a stack of 1 MiB, {refused} refused, 0 differ; hostile sharing {slowest:.1} ms"
            );
            ExitCode::SUCCESS
        }
    }
}

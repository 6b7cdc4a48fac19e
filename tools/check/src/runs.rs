//! `rl_run` held against the independent runner, on the answer and on every
//! entry of the slices.

use crate::ffi;
use crate::slices::{check_slice, lend, GARBAGE};
use rlimg::decode::decode;
use rlimg::image::{Image, WORK};
use rlimg::reader::Refusal;
use rlimg::run::{answer_to, same_nan, Call, OUTCOME};

/// An image, and what the independent reader says of it.
pub struct Case {
    pub bytes: Vec<u8>,
    pub image: Result<Image, Refusal>,
    /// What reading leaves at the start of the work slice.
    pub heights: Vec<u16>,
}

impl Case {
    pub fn new(bytes: Vec<u8>) -> Case {
        let image = decode(&bytes);
        let mut heights = vec![0; WORK];
        let used = match &image {
            Ok(image) => image.counts()[3] + image.counts()[4],
            Err(_) => 0,
        };
        crate::expected(&bytes, &mut heights);
        heights.truncate(used);
        Case { bytes, image, heights }
    }
}

/// The slices that are lent, with what stands behind them.
#[derive(Default)]
pub struct Slices {
    work: Vec<u16>,
    outcome: Vec<u64>,
}

/// What both answer to a call, or how they differ.
pub fn compare(
    slices: &mut Slices,
    case: &Case,
    call: &Call,
) -> Result<Result<[u64; OUTCOME], Refusal>, String> {
    lend(&mut slices.work, call.work, GARBAGE.0);
    lend(&mut slices.outcome, OUTCOME, GARBAGE.2);
    let work = &mut slices.work[..call.work];
    let outcome: &mut [u64; OUTCOME] = slices.outcome.first_chunk_mut().expect("lent");
    let ours = ffi::run(&case.bytes, work, call.function, &call.words, call.budget, outcome);
    *outcome = same_nan(*outcome);
    let theirs = answer_to(&case.image, call);
    let (number, place) = theirs.map_or_else(|refusal| (refusal.number, refusal.place), |_| (0, 0));
    if (ours.number, ours.place) != (number, place) {
        let ours = format!("answer {} at {}", ours.number, ours.place);
        return Err(format!("{ours}, expected {number} at {place} ({theirs:?})"));
    }
    let words = theirs.as_ref().map_or(&[][..], |words| &words[..]);
    let heights = if number == 0 { &case.heights[..] } else { &[] };
    check_slice("outcome", words, (&slices.outcome, OUTCOME, GARBAGE.2))
        .and_then(|_| check_slice("work", heights, (&slices.work, call.work, GARBAGE.0)))
        .map_err(|fault| format!("{fault}; expected {theirs:?}"))?;
    Ok(theirs)
}

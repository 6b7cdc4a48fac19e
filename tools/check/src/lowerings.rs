//! `rl_lower` held against the independent lowering, on the answer and on every
//! entry of the slices.

use crate::ffi;
use crate::runs::Case;
use crate::slices::{check_slice, lend, GARBAGE, GARBAGE_BYTE};
use rlimg::image::{Image, WORK};
use rlimg::lower::{answer, Call, ROOM};
use rlimg::reader::Refusal;
use rlimg::run::{same_nan, shown, Shown, Value, OUTCOME};

/// The slices that are lent, with what stands behind them.
#[derive(Default)]
pub struct Slices {
    work: Vec<u16>,
    out: Vec<u8>,
}

/// What both answer to a call, or how they differ.
pub fn compare(
    slices: &mut Slices,
    case: &Case,
    call: Call,
) -> Result<Result<Vec<u8>, Refusal>, String> {
    lend(&mut slices.work, call.work, GARBAGE.0);
    lend(&mut slices.out, call.room, GARBAGE_BYTE);
    let (work, out) = (&mut slices.work[..call.work], &mut slices.out[..call.room]);
    let ours = ffi::lower(&case.bytes, work, call.function, out);
    let theirs = answer(&case.bytes, call);
    let (number, low, bytes, heights) = match &theirs {
        Ok(bytes) => (0, bytes.len() as u32, &bytes[..], &case.heights[..]),
        Err(refusal) => (refusal.number, refusal.place, &[][..], &[][..]),
    };
    if (ours.number, ours.place) != (number, low) {
        let ours = format!("answer {} and {}", ours.number, ours.place);
        return Err(format!("{ours}, expected {number} and {low}"));
    }
    check_slice("out", bytes, (&slices.out, call.room, GARBAGE_BYTE))?;
    check_slice("work", heights, (&slices.work, call.work, GARBAGE.0))?;
    Ok(theirs)
}

/// The library's lowered image, or the number of its refusal.
pub fn lowered(bytes: &[u8], function: u32) -> Result<Vec<u8>, u32> {
    let (mut work, mut out) = (vec![0; WORK], vec![0; ROOM]);
    let answer = ffi::lower(bytes, &mut work, function, &mut out);
    if answer.number != 0 {
        return Err(answer.number);
    }
    out.truncate(answer.place as usize);
    Ok(out)
}

/// The library's run of a lowered image, which is also here by its records.
pub fn run(
    (bytes, image): (&[u8], &Image),
    function: u32,
    values: &[Value],
    budget: u32,
) -> Result<Shown, u32> {
    let (mut work, mut lent) = ([0; WORK], [GARBAGE.2; OUTCOME + 1]);
    let outcome: &mut [u64; OUTCOME] = lent.first_chunk_mut().expect("lent");
    let words: Vec<u64> = values.iter().flat_map(|value| value.words()).collect();
    let answer = ffi::run(bytes, &mut work, function, &words, budget, outcome);
    let outcome = *outcome;
    assert_eq!(lent[OUTCOME], GARBAGE.2, "the outcome is written behind its end");
    match answer.number {
        0 => Ok(shown(same_nan(outcome), |text| image.text_of(text).map(<[u8]>::to_vec))),
        number => Err(number),
    }
}

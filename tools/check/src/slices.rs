//! Slices as they are lent to the library, and what must be in them after.

use std::fmt::Debug;

/// Entries behind a lent slice, which must stay as they are.
const GUARD: usize = 16;
/// What lent slices hold before each call.
pub const GARBAGE_BYTE: u8 = 0xab;
pub const GARBAGE: (u16, u32, u64) = (0xabcd, 0xabcd_ef01, 0xabcd_ef01_2345_6789);

/// A slice with what stands behind it, its length, and what it was filled with.
pub type Lent<'a, T> = (&'a [T], usize, T);

/// Fills a slice of that length, and what stands behind it.
pub fn lend<T: Copy>(slice: &mut Vec<T>, length: usize, garbage: T) {
    slice.clear();
    slice.resize(length + GUARD, garbage);
}

/// The slice starts as expected, is zero from there on, and nothing has been
/// written behind it.
pub fn check_slice<T: Copy + PartialEq + Default + Debug>(
    name: &str,
    expected: &[T],
    (slice, length, garbage): Lent<T>,
) -> Result<(), String> {
    let (used, rest) = slice.split_at(expected.len());
    let (zeros, guard) = rest.split_at(length - used.len());
    if used != expected {
        let differs = used.iter().zip(expected).position(|(ours, theirs)| ours != theirs);
        let at = differs.unwrap_or_default();
        return Err(format!("{name}: {:?}, expected {:?}, entry {at}", used[at], expected[at]));
    }
    // No early exit, so that many entries are compared at a time.
    if zeros.iter().fold(false, |other, entry| other | (*entry != T::default())) {
        return Err(format!("{name}: not zero from entry {} on", used.len()));
    }
    if guard.iter().any(|entry| *entry != garbage) {
        return Err(format!("{name}: written behind its end"));
    }
    Ok(())
}

/// What stands in front of a slice, and must stay as it is.
pub fn check_front<T: Copy + PartialEq>(name: &str, front: &[T], garbage: T) -> Result<(), String> {
    match front.iter().all(|entry| *entry == garbage) {
        true => Ok(()),
        false => Err(format!("{name}: written in front of it")),
    }
}

//! Comparing texts byte by byte and by words, behind safe functions. They are
//! exported for the benchmark alone.

extern "C" {
    fn bench_same_bytes(a: *const u8, a_len: usize, b: *const u8, b_len: usize) -> bool;
    fn bench_same_text(a: *const u8, a_len: usize, b: *const u8, b_len: usize) -> bool;
    fn bench_less_bytes(a: *const u8, a_len: usize, b: *const u8, b_len: usize) -> bool;
    fn bench_less_text(a: *const u8, a_len: usize, b: *const u8, b_len: usize) -> bool;
}

// SAFETY, of all calls below: each pointer comes with the length of its slice,
// which lives throughout the call and is only read.

/// Equal, byte by byte.
pub fn same_bytes(a: &[u8], b: &[u8]) -> bool {
    unsafe { bench_same_bytes(a.as_ptr(), a.len(), b.as_ptr(), b.len()) }
}

/// Equal, by words.
pub fn same_text(a: &[u8], b: &[u8]) -> bool {
    unsafe { bench_same_text(a.as_ptr(), a.len(), b.as_ptr(), b.len()) }
}

/// Less, byte by byte.
pub fn less_bytes(a: &[u8], b: &[u8]) -> bool {
    unsafe { bench_less_bytes(a.as_ptr(), a.len(), b.as_ptr(), b.len()) }
}

/// Less, by words.
pub fn less_text(a: &[u8], b: &[u8]) -> bool {
    unsafe { bench_less_text(a.as_ptr(), a.len(), b.as_ptr(), b.len()) }
}

/// The first of them that does not say what Rust says of the slices.
pub fn wrong(a: &[u8], b: &[u8]) -> Option<&'static str> {
    let (same, less) = (a == b, a < b);
    let said = [
        ("same_bytes", same_bytes(a, b), same),
        ("same_text", same_text(a, b), same),
        ("less_bytes", less_bytes(a, b), less),
        ("less_text", less_text(a, b), less),
    ];
    said.into_iter().find(|(_, said, must)| said != must).map(|(name, ..)| name)
}

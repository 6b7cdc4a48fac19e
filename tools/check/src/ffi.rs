//! The library's exports behind safe functions.

extern "C" {
    fn rl_read(image: *const u8, image_len: usize, work: *mut u16, work_len: usize) -> u64;
    fn rl_fold(
        image: *const u8,
        image_len: usize,
        work: *mut u16,
        work_len: usize,
        arena: u32,
        node: u32,
        value: *mut [u64; 2],
    ) -> u64;
    fn rl_prove(
        image: *const u8,
        image_len: usize,
        work: *mut u16,
        work_len: usize,
        call: u32,
        reports: *mut u32,
        reports_len: usize,
    ) -> u64;
    fn rl_prove_all(
        image: *const u8,
        image_len: usize,
        work: *mut u16,
        work_len: usize,
        reports: *mut u32,
        reports_len: usize,
    ) -> u64;
    fn rl_run(
        image: *const u8,
        image_len: usize,
        work: *mut u16,
        work_len: usize,
        function: u32,
        values: *const u64,
        values_len: usize,
        budget: u32,
        outcome: *mut [u64; 4],
    ) -> u64;
    fn rl_lower(
        image: *const u8,
        image_len: usize,
        work: *mut u16,
        work_len: usize,
        function: u32,
        out: *mut u8,
        out_len: usize,
    ) -> u64;
    fn rl_text(
        image: *const u8,
        image_len: usize,
        work: *mut u16,
        work_len: usize,
        text: u32,
    ) -> u64;
    fn rl_message(
        image: *const u8,
        image_len: usize,
        work: *mut u16,
        work_len: usize,
        call: u32,
        report: u32,
        out: *mut [u8; MESSAGE],
    ) -> u64;
    fn rl_pages(
        image: *const u8,
        image_len: usize,
        work: *mut u16,
        work_len: usize,
        pages: *mut u8,
        pages_len: usize,
    ) -> u64;
}

/// The bytes that are lent for a message.
pub const MESSAGE: usize = 65_535;

/// A refusal's number, 0 without one, and the low half of the answer: the
/// refusal's place or, after proving, how many reports there are or, after
/// lowering, for a message and for pages, how many bytes or, for a text, where
/// its bytes start and, above 16 bits, how many they are.
#[derive(Debug, Clone, Copy, PartialEq, Eq)]
pub struct Answer {
    pub number: u32,
    pub place: u32,
}

impl Answer {
    fn of(answer: u64) -> Answer {
        Answer { number: (answer >> 32) as u32, place: answer as u32 }
    }
}

// SAFETY, of all calls below: each pointer comes with the length of its slice or
// is to an array of the length that the library writes, slices and arrays live
// throughout the call and do not overlap.

/// Reads an image; `work` is overwritten whole.
pub fn read(image: &[u8], work: &mut [u16]) -> Answer {
    Answer::of(unsafe { rl_read(image.as_ptr(), image.len(), work.as_mut_ptr(), work.len()) })
}

/// Folds a node under no names; `work` and `value` are overwritten whole.
pub fn fold(image: &[u8], work: &mut [u16], arena: u32, node: u32, value: &mut [u64; 2]) -> Answer {
    Answer::of(unsafe {
        rl_fold(image.as_ptr(), image.len(), work.as_mut_ptr(), work.len(), arena, node, value)
    })
}

/// Proves a call; `work` and `reports` are overwritten whole.
pub fn prove(image: &[u8], work: &mut [u16], call: u32, reports: &mut [u32]) -> Answer {
    Answer::of(unsafe {
        rl_prove(
            image.as_ptr(),
            image.len(),
            work.as_mut_ptr(),
            work.len(),
            call,
            reports.as_mut_ptr(),
            reports.len(),
        )
    })
}

/// Proves every call; `work` and `reports` are overwritten whole.
pub fn prove_all(image: &[u8], work: &mut [u16], reports: &mut [u32]) -> Answer {
    Answer::of(unsafe {
        rl_prove_all(
            image.as_ptr(),
            image.len(),
            work.as_mut_ptr(),
            work.len(),
            reports.as_mut_ptr(),
            reports.len(),
        )
    })
}

/// Runs a function; `work` and `outcome` are overwritten whole.
pub fn run(
    image: &[u8],
    work: &mut [u16],
    function: u32,
    values: &[u64],
    budget: u32,
    outcome: &mut [u64; 4],
) -> Answer {
    Answer::of(unsafe {
        rl_run(
            image.as_ptr(),
            image.len(),
            work.as_mut_ptr(),
            work.len(),
            function,
            values.as_ptr(),
            values.len(),
            budget,
            outcome,
        )
    })
}

/// Lowers a function; `work` and `out` are overwritten whole.
pub fn lower(image: &[u8], work: &mut [u16], function: u32, out: &mut [u8]) -> Answer {
    Answer::of(unsafe {
        rl_lower(
            image.as_ptr(),
            image.len(),
            work.as_mut_ptr(),
            work.len(),
            function,
            out.as_mut_ptr(),
            out.len(),
        )
    })
}

/// Finds a text; `work` is overwritten whole.
pub fn text(image: &[u8], work: &mut [u16], text: u32) -> Answer {
    Answer::of(unsafe { rl_text(image.as_ptr(), image.len(), work.as_mut_ptr(), work.len(), text) })
}

/// Writes the message of a call's report; `work` and `out` are overwritten whole.
pub fn message(
    image: &[u8],
    work: &mut [u16],
    call: u32,
    report: u32,
    out: &mut [u8; MESSAGE],
) -> Answer {
    Answer::of(unsafe {
        rl_message(image.as_ptr(), image.len(), work.as_mut_ptr(), work.len(), call, report, out)
    })
}

/// Writes the pages of all calls' reports; `work` and `pages` are overwritten
/// whole.
pub fn pages(image: &[u8], work: &mut [u16], pages: &mut [u8]) -> Answer {
    Answer::of(unsafe {
        rl_pages(
            image.as_ptr(),
            image.len(),
            work.as_mut_ptr(),
            work.len(),
            pages.as_mut_ptr(),
            pages.len(),
        )
    })
}

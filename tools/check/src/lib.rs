//! What the programs that check the library share.

pub mod ffi;
pub mod images;
pub mod lowerings;
pub mod runs;
pub mod slices;
pub mod stack;
pub mod texts;
pub mod timing;
pub mod tried;

use ffi::Answer;
use oracle::Report;
use rlimg::image::Image;
use rlimg::reader;

/// The independent reader's answer, in the library's form.
pub fn expected(image: &[u8], work: &mut [u16]) -> Answer {
    match reader::read_into(image, work) {
        Ok(_) => Answer { number: 0, place: 0 },
        Err(refusal) => Answer { number: refusal.number, place: refusal.place },
    }
}

/// A report of the lent slice in the original's form; none where the image
/// cannot have it.
pub fn said(image: &Image, report: &[u32]) -> Option<Report> {
    Report::of(image, report.try_into().ok()?)
}

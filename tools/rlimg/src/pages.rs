//! The reports of all calls on printed pages, written by hand from the rules.
//! Columns are counted by Rust's `char`s.

pub mod images;

use crate::decode::decode;
use crate::image::{Image, LENGTH_LIMIT, WORK};
use crate::prove::{self, Report};
use crate::reader::{self, Refusal};
use crate::schema::Section;

/// The lines of a page, and the columns of a line.
pub const LINES: usize = 60;
pub const COLUMNS: usize = 72;
/// The columns of callee and message.
pub const CALLEE: usize = 16;
pub const MESSAGE: usize = 39;
/// The most bytes of a line with its newline, and of a page: callee and message
/// may have four bytes a column.
pub const LINE_BYTES: usize = 4 + 1 + 10 + 1 + 4 * CALLEE + 1 + 4 * MESSAGE + 1;
pub const PAGE_BYTES: usize = LINES * LINE_BYTES;

/// What a message begins with, and a line leaves out.
const OPENING: &str = "contract violation (proven at compile time): ";
/// A page slice that is shorter than the pages.
const PAGES_TOO_SHORT: u32 = 22;

/// The pages of an image, or reading's refusal.
pub fn pages(bytes: &[u8]) -> Result<Vec<u8>, Refusal> {
    Ok(of(&decode(bytes)?))
}

/// The pages of an accepted image.
pub fn of(image: &Image) -> Vec<u8> {
    of_reports(image, &prove::reports(image))
}

/// The same, where its reports are known.
pub fn of_reports(image: &Image, reports: &[Report]) -> Vec<u8> {
    let lines: Vec<String> = reports.iter().map(|report| line(image, *report)).collect();
    let mut pages = String::new();
    for page in lines.chunks(LINES) {
        for line in page {
            pages.push_str(line);
            pages.push('\n');
        }
        for _ in page.len()..LINES {
            pages.push_str(&" ".repeat(COLUMNS));
            pages.push('\n');
        }
    }
    pages.into_bytes()
}

/// A report's line, without its newline.
fn line(image: &Image, report: Report) -> String {
    let [call, span, ..] = report;
    let record = &image.of(Section::Call)[call as usize];
    let callee = image.text_of(record.number(0) as u16).expect("a text of the image");
    let callee = std::str::from_utf8(callee).expect("an accepted text");
    let message = prove::message(image, report).expect("a report of the image");
    let message = message.strip_prefix(OPENING).expect("the opening");
    let (callee, message) = (left(callee, CALLEE), left(message, MESSAGE));
    format!("{call:>4} {span:>10} {callee} {message}")
}

/// A text in so many columns, at the left.
fn left(text: &str, columns: usize) -> String {
    let shown = |scalar: char| if scalar < ' ' { '?' } else { scalar };
    text.chars().map(shown).chain(std::iter::repeat(' ')).take(columns).collect()
}

/// What the exported function is handed besides the image: the lengths of the
/// work slice and of the page slice.
#[derive(Debug, Clone, Copy, PartialEq, Eq)]
pub struct Call {
    pub work: usize,
    pub room: usize,
}

/// What the exported function leaves: the answer's halves, and every entry of
/// both slices. The low half is the refusal's place or the number of bytes.
#[derive(Debug, Clone, PartialEq, Eq)]
pub struct Whole {
    pub number: u32,
    pub low: u32,
    pub pages: Vec<u8>,
    pub work: Vec<u16>,
}

/// The whole answer, for any bytes.
pub fn answer(bytes: &[u8], call: Call) -> Whole {
    Printed::new(bytes).answer(call)
}

/// An image's pages, made once for slices of any lengths.
#[derive(Debug, Clone)]
pub struct Printed {
    pub image: Result<Image, Refusal>,
    /// How many reports there are.
    pub reports: usize,
    pub pages: Vec<u8>,
    is_long: bool,
    heights: Vec<u16>,
}

impl Printed {
    pub fn new(bytes: &[u8]) -> Printed {
        let image = decode(bytes);
        let reports = image.as_ref().map(prove::reports).unwrap_or_default();
        let pages = image.as_ref().map(|image| of_reports(image, &reports)).unwrap_or_default();
        let heights = match reader::read(bytes, WORK) {
            Ok(read) => [read.expression_heights, read.statement_heights].concat(),
            Err(_) => Vec::new(),
        };
        let is_long = bytes.len() > LENGTH_LIMIT;
        Printed { image, reports: reports.len(), pages, is_long, heights }
    }

    /// Why a call is refused. Only an image that is too long comes before a work
    /// slice that is too short.
    fn refusal(&self, call: Call) -> Option<Refusal> {
        if call.work < WORK && !self.is_long {
            return Some(Refusal { number: 2, place: 0 });
        }
        if let Err(refusal) = &self.image {
            return Some(*refusal);
        }
        let is_short = call.room < self.pages.len();
        is_short.then_some(Refusal { number: PAGES_TOO_SHORT, place: 0 })
    }

    pub fn answer(&self, call: Call) -> Whole {
        let (mut pages, mut work) = (vec![0; call.room], vec![0; call.work]);
        if let Some(Refusal { number, place }) = self.refusal(call) {
            return Whole { number, low: place, pages, work };
        }
        pages[..self.pages.len()].copy_from_slice(&self.pages);
        work[..self.heights.len()].copy_from_slice(&self.heights);
        Whole { number: 0, low: self.pages.len() as u32, pages, work }
    }
}

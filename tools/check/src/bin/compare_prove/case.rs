//! One image, and what each export must answer to it.

use check::ffi::Answer;
use rlimg::decode::decode;
use rlimg::fold::{self, Folded, Names};
use rlimg::image::{Image, LENGTH_LIMIT, WORK};
use rlimg::prove::{self, Report};
use rlimg::schema::Section;
use rlimg::texts;

/// An answer, and what stands at the start of the lent slice after it; the
/// rest is zero.
pub struct Expected<T> {
    pub answer: Answer,
    pub output: Vec<T>,
}

fn refused<T>(number: u32) -> Expected<T> {
    Expected { answer: Answer { number, place: 0 }, output: Vec::new() }
}

pub struct Case {
    pub bytes: Vec<u8>,
    /// The independent reader's answer to a work slice that is long enough.
    pub read: Answer,
    /// What reading leaves at the start of the work slice.
    pub heights: Vec<u16>,
    /// Without any records where reading refuses.
    pub image: Image,
    pub values: Vec<Option<Folded>>,
    /// The independent prover's reports of each call.
    pub reports: Vec<Vec<Report>>,
    /// Their messages.
    messages: Vec<Vec<String>>,
}

impl Case {
    pub fn new(bytes: Vec<u8>) -> Case {
        let mut heights = vec![0; WORK];
        let read = check::expected(&bytes, &mut heights);
        let image = decode(&bytes).unwrap_or_default();
        let counts = image.counts();
        heights.truncate(counts[3] + counts[4]);
        let values = fold::values(&image, &Names::new());
        let reports = (0..counts[8]).map(|call| prove::reports_of(&image, call)).collect();
        let messages = (0..counts[8] as u32).filter_map(|call| texts::messages(&image, call));
        let messages = messages.collect();
        Case { bytes, read, heights, image, values, reports, messages }
    }

    pub fn is_accepted(&self) -> bool {
        self.read.number == 0
    }

    pub fn nodes(&self) -> u32 {
        self.values.len() as u32
    }

    pub fn calls(&self) -> u32 {
        self.image.of(Section::Call).len() as u32
    }

    /// Reading's refusal.
    fn unread<T>(&self, work: usize) -> Option<Expected<T>> {
        if self.bytes.len() <= LENGTH_LIMIT && work < WORK {
            return Some(refused(2));
        }
        (!self.is_accepted()).then(|| Expected { answer: self.read, output: Vec::new() })
    }

    pub fn folded(&self, work: usize, arena: u32, node: u32) -> Expected<u64> {
        if let Some(unread) = self.unread(work) {
            return unread;
        }
        if arena != self.image.arena {
            return refused(15);
        }
        match self.values.get(node as usize) {
            None => refused(16),
            Some(value) => {
                let answer = Answer { number: 0, place: 0 };
                Expected { answer, output: fold::words(*value).to_vec() }
            }
        }
    }

    /// For one call, or for all of them.
    pub fn proved(&self, work: usize, call: Option<u32>, room: usize) -> Expected<u32> {
        if let Some(unread) = self.unread(work) {
            return unread;
        }
        let reports = match call {
            None => self.reports.concat(),
            Some(call) => match self.reports.get(call as usize) {
                None => return refused(17),
                Some(reports) => reports.clone(),
            },
        };
        if room < 4 * reports.len() {
            return refused(18);
        }
        let answer = Answer { number: 0, place: reports.len() as u32 };
        Expected { answer, output: reports.concat() }
    }

    /// Where a text is, and how many bytes it has above 16 bits.
    pub fn text(&self, work: usize, text: u32) -> Expected<u8> {
        if let Some(unread) = self.unread(work) {
            return unread;
        }
        match texts::text(&self.image, text) {
            None => refused(20),
            Some((start, length)) => {
                let place = u32::from(start) | u32::from(length) << 16;
                Expected { answer: Answer { number: 0, place }, output: Vec::new() }
            }
        }
    }

    /// The message of a call's report, empty where there is no such report.
    pub fn message(&self, work: usize, call: u32, report: u32) -> Expected<u8> {
        if let Some(unread) = self.unread(work) {
            return unread;
        }
        let Some(messages) = self.messages.get(call as usize) else {
            return refused(17);
        };
        let output = messages.get(report as usize).cloned().unwrap_or_default().into_bytes();
        Expected { answer: Answer { number: 0, place: output.len() as u32 }, output }
    }
}

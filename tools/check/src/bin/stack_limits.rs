//! `stack_limits`: how much stack each export takes at the most, on the deepest
//! and the largest images, and a bound that none may pass; the library's header
//! states the bounds.

use check::ffi::{self, MESSAGE};
use check::lowerings::lowered;
use check::runs::Case;
use check::stack::{bytes_of, on_a_thread};
use rlimg::encode::encode;
use rlimg::image::{Image, EXPRESSION_HEIGHT, STATEMENT_HEIGHT, WORK};
use rlimg::lower::ROOM;
use rlimg::lowerings::limits;
use rlimg::pages::{self, LINES, PAGE_BYTES};
use rlimg::rng::Rng;
use rlimg::run::VALUES;
use rlimg::schema::Section;
use rlimg::{deep, edges, hostile, lowerings, random, rules};
use std::hint::black_box;
use std::process::ExitCode;

/// The exports and their bounds, in KiB.
const BOUNDS: [(&str, usize); EXPORTS] = [
    ("rl_read", 16),
    ("rl_fold", 128),
    ("rl_prove", 160),
    ("rl_prove_all", 160),
    ("rl_run", 896),
    ("rl_lower", 384),
    ("rl_text", 16),
    ("rl_message", 144),
    ("rl_pages", 144),
];
const EXPORTS: usize = 9;
/// Generated images beside the listed ones.
const GENERATED: usize = 300;
/// The deepest functions take fewer steps.
const STEPS: u32 = 10_000;
/// Enough for all reports of an image.
const REPORTS: usize = 4 * 512 * 256;
/// What the measuring is tried on.
const KNOWN: usize = 100_000;

/// The deepest images and the largest, as bytes.
fn listed() -> Vec<Vec<u8>> {
    let ways = (0..deep::NESTED).flat_map(|way| (0..deep::TALL).map(move |kind| (way, kind)));
    let mut all: Vec<Image> = ways.map(|(way, kind)| deep::nested(way, kind)).collect();
    all.extend((0..deep::TALL).map(Some).chain([None]).map(deep::emptied));
    all.extend((0..deep::TALL).map(deep::called));
    all.extend(limits::all());
    all.extend([hostile::doubled(EXPRESSION_HEIGHT.into()), hostile::deep_tree()]);
    all.extend([hostile::worst_call(), hostile::long_names(1_024), hostile::long_texts(1_024)]);
    all.extend([deep::long_names(), deep::long_texts(), hostile::longest_output()]);
    all.push(pages::images::widest());
    all.extend([check::images::full(), edges::largest()]);
    all.extend([edges::expression_chain(EXPRESSION_HEIGHT.into())]);
    all.extend([edges::statement_chain(STATEMENT_HEIGHT.into())]);
    let deepest = limits::deepest();
    let lowered = deepest.iter().filter_map(|image| lowered(&encode(image), 0).ok());
    all.iter().map(encode).chain(lowered).chain([vec![1; 65_536], vec![]]).collect()
}

fn generated() -> Vec<Vec<u8>> {
    let mut rng = Rng::new(1);
    let mut any = |number: usize| match number % 3 {
        0 => lowerings::any(&mut rng),
        1 => rules::image(&mut rng, 12),
        _ => random::image(&mut rng, random::Shape::of(40, false)),
    };
    (0..GENERATED).map(|number| encode(&any(number))).collect()
}

/// What is lent, and the image's numbers that are tried.
struct Lent {
    case: Case,
    work: Vec<u16>,
    reports: Vec<u32>,
    out: Vec<u8>,
    message: Box<[u8; MESSAGE]>,
    /// Long enough for the pages of the image.
    pages: Vec<u8>,
}

/// The first and the last of so many, and one that is not there.
fn ends(count: usize) -> [u32; 3] {
    [0, count.saturating_sub(1) as u32, count as u32]
}

impl Lent {
    fn new(bytes: Vec<u8>) -> Lent {
        let message = vec![0; MESSAGE].into_boxed_slice().try_into().expect("its length");
        let (mut work, mut reports, out) = (vec![0; WORK], vec![0; REPORTS], vec![0; ROOM]);
        let proved = ffi::prove_all(&bytes, &mut work, &mut reports);
        let count = if proved.number == 0 { proved.place as usize } else { 0 };
        let pages = vec![0; PAGE_BYTES * count.div_ceil(LINES)];
        Lent { case: Case::new(bytes), work, reports, out, message, pages }
    }

    fn count(&self, section: Section) -> usize {
        self.case.image.as_ref().map_or(0, |image| image.of(section).len())
    }

    fn read(&mut self) {
        ffi::read(&self.case.bytes, &mut self.work);
    }

    /// The last node, and some of the tallest.
    fn fold(&mut self) {
        let count = self.count(Section::Expression);
        let arena = self.case.image.as_ref().map_or(0, |image| image.arena);
        let heights = &self.case.heights[..count];
        let tallest = (0..count).rev().filter(|node| heights[*node] == EXPRESSION_HEIGHT);
        for node in tallest.take(8).chain([count.saturating_sub(1), count]) {
            ffi::fold(&self.case.bytes, &mut self.work, arena, node as u32, &mut [0; 2]);
        }
    }

    fn prove(&mut self) {
        for call in ends(self.count(Section::Call)) {
            ffi::prove(&self.case.bytes, &mut self.work, call, &mut self.reports);
        }
    }

    fn prove_all(&mut self) {
        ffi::prove_all(&self.case.bytes, &mut self.work, &mut self.reports);
    }

    /// On as many values as there are parameters, Null and whole numbers.
    fn run(&mut self) {
        for function in ends(self.count(Section::Function)) {
            let records = self.case.image.as_ref().ok().map(|image| image.of(Section::Function));
            let record = records.and_then(|records| records.get(function as usize));
            let count = record.map_or(0, |record| usize::from(record.range(2).1)).min(VALUES);
            for value in [[0, 0], [1, 1]] {
                let (values, mut outcome) = (value.repeat(count), [0; 4]);
                let (bytes, work) = (&self.case.bytes, &mut self.work);
                ffi::run(bytes, work, function, &values, STEPS, &mut outcome);
            }
        }
    }

    fn lower(&mut self) {
        for function in ends(self.count(Section::Function)) {
            ffi::lower(&self.case.bytes, &mut self.work, function, &mut self.out);
        }
    }

    fn text(&mut self) {
        let texts = self.case.image.as_ref().map_or(0, |image| image.texts.len());
        for text in ends(texts) {
            ffi::text(&self.case.bytes, &mut self.work, text);
        }
    }

    fn message(&mut self) {
        for call in ends(self.count(Section::Call)) {
            for report in [0, 1, 511, 512] {
                let (bytes, work) = (&self.case.bytes, &mut self.work);
                ffi::message(bytes, work, call, report, &mut self.message);
            }
        }
    }

    /// In full, and with a slice that is too short.
    fn pages(&mut self) {
        ffi::pages(&self.case.bytes, &mut self.work, &mut self.pages);
        ffi::pages(&self.case.bytes, &mut self.work, &mut []);
    }

    /// The bytes of stack that each export takes.
    fn measured(&mut self) -> [usize; EXPORTS] {
        [
            bytes_of(|| self.read()),
            bytes_of(|| self.fold()),
            bytes_of(|| self.prove()),
            bytes_of(|| self.prove_all()),
            bytes_of(|| self.run()),
            bytes_of(|| self.lower()),
            bytes_of(|| self.text()),
            bytes_of(|| self.message()),
            bytes_of(|| self.pages()),
        ]
    }
}

/// How many images there are, and the most that each export takes.
fn most() -> (usize, [usize; EXPORTS]) {
    let (mut count, mut most) = (0, [0; EXPORTS]);
    for bytes in listed().into_iter().chain(generated()) {
        let bytes = Lent::new(bytes).measured();
        most = std::array::from_fn(|export| most[export].max(bytes[export]));
        count += 1;
    }
    (count, most)
}

/// Takes a known part of the stack.
#[inline(never)]
fn known() {
    black_box(black_box([1u8; KNOWN])[0]);
}

fn main() -> ExitCode {
    let of_known = on_a_thread(|| bytes_of(known));
    if !(KNOWN..KNOWN + 4_096).contains(&of_known) {
        println!("stack_limits: {KNOWN} bytes are measured as {of_known}");
        return ExitCode::FAILURE;
    }
    let (count, most) = on_a_thread(most);
    let mut over = 0;
    for ((name, bound), bytes) in BOUNDS.into_iter().zip(most) {
        let verdict = if bytes > bound << 10 { "over" } else { "within" };
        over += usize::from(bytes > bound << 10);
        println!("stack_limits: {name} takes {bytes} bytes, {verdict} {bound} KiB");
    }
    println!("stack_limits: {count} images, {over} exports over their bounds");
    match over {
        0 => ExitCode::SUCCESS,
        _ => ExitCode::FAILURE,
    }
}

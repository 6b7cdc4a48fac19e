//! `compare_pages [CASES] [SEED]`: the library's `rl_pages` against the
//! independent pages, on answers and on every entry of both slices; and against
//! the layout itself, with the number of reports from `rl_prove_all`.

use check::ffi::{self, Answer};
use check::slices::{check_front, check_slice, lend, GARBAGE, GARBAGE_BYTE};
use check::tried;
use rlimg::damage::{damage, work_length};
use rlimg::encode::encode;
use rlimg::image::WORK;
use rlimg::pages::images;
use rlimg::pages::{Call, Printed, Whole, COLUMNS, LINES};
use rlimg::rng::Rng;
use std::collections::BTreeMap;
use std::process::ExitCode;

/// Where an image goes that shows a difference.
const FILE: &str = concat!(env!("CARGO_MANIFEST_DIR"), "/../target/compare_pages.img");
/// Everything that is counted must have been seen so often.
const ENOUGH: usize = 50;
/// The refusals that are counted for that.
const REFUSALS: [u32; 11] = [1, 2, 3, 4, 5, 6, 7, 8, 9, 10, 22];
/// Page slices start at places that are so much behind a multiple of 8, and so
/// many bytes stand in front at least.
const ODD: [usize; 2] = [1, 3];
const FRONT: usize = 16;
/// A page slice that is longer by so much is much longer.
const MUCH: usize = 20_000;

/// How often each thing was seen.
#[derive(Default)]
struct Tally {
    images: usize,
    refused: usize,
    calls: usize,
    /// Calls whose page slice starts at an odd address.
    odd: usize,
    reports: usize,
    pages: usize,
    bytes: usize,
    /// Images without a page, with one, and with more.
    by_pages: [usize; 3],
    /// Scalars of one to four bytes.
    widths: [usize; 4],
    refusals: BTreeMap<u32, usize>,
}

impl Tally {
    fn is_enough(&self) -> bool {
        let refused = |number: &u32| self.refusals.get(number).copied().unwrap_or(0);
        let counts = self.by_pages.into_iter().chain(self.widths).chain([self.odd]);
        counts.chain(REFUSALS.iter().map(refused)).min() >= Some(ENOUGH)
    }

    fn print(&self) {
        let refusals = self.refusals.iter().map(|(number, count)| format!("{number}: {count}"));
        let [none, one, more] = self.by_pages;
        let [first, second, third, fourth] = self.widths;
        println!(
            "compare_pages: {} images ({} refused), {} calls ({} at odd addresses), 0 differ; \
             reports {}, pages {}, bytes {}; images without a page {none}, with one {one}, with \
             more {more}; scalars of 1 byte {first}, 2 {second}, 3 {third}, 4 {fourth}; refusals {}",
            self.images,
            self.refused,
            self.calls,
            self.odd,
            self.reports,
            self.pages,
            self.bytes,
            refusals.collect::<Vec<String>>().join(", "),
        );
        if !self.is_enough() {
            println!("something was seen fewer than {ENOUGH} times");
        }
    }
}

/// A difference, and the image that shows it.
struct Shown(String, Vec<u8>);

struct Comparison {
    tally: Tally,
    rng: Rng,
    work: Vec<u16>,
    pages: Vec<u8>,
}

impl Comparison {
    /// Everything about one image.
    fn image(&mut self, bytes: &[u8]) -> Result<(), Shown> {
        self.about(bytes).map_err(|fault| Shown(fault, bytes.to_vec()))
    }

    fn about(&mut self, bytes: &[u8]) -> Result<(), String> {
        self.tally.images += 1;
        let printed = Printed::new(bytes);
        if printed.image.is_err() {
            self.tally.refused += 1;
            let (work, room) = (work_length(&mut self.rng), self.rng.pick(&[0, 1, 73, MUCH]));
            self.compare(bytes, &printed, Call { work: WORK, room })?;
            return self.compare(bytes, &printed, Call { work, room: room + 1 });
        }
        let exact = printed.pages.len();
        self.compare(bytes, &printed, Call { work: WORK, room: exact })?;
        self.layout(bytes, &printed)?;
        let short = self.rng.below(exact.max(1));
        let more = exact + 2 + self.rng.below(200);
        let rooms = [0, short, exact.saturating_sub(1), exact + 1, more, exact + MUCH];
        for room in rooms {
            self.compare(bytes, &printed, Call { work: WORK, room })?;
        }
        let any = self.rng.below(WORK);
        let works = [0, any, WORK - 1, WORK + 1, WORK + any];
        let (work, room) = (self.rng.pick(&works), self.rng.pick(&rooms));
        self.compare(bytes, &printed, Call { work, room })?;
        self.compare(bytes, &printed, Call { work: WORK + 1, room: exact })
    }

    /// An accepted image with page slices that start at odd addresses.
    fn odd(&mut self, bytes: &[u8]) -> Result<(), Shown> {
        let printed = Printed::new(bytes);
        let exact = printed.pages.len();
        let rooms = [exact.saturating_sub(1), exact, exact + 5];
        for (odd, room) in ODD.into_iter().flat_map(|odd| rooms.map(|room| (odd, room))) {
            let call = Call { work: WORK, room };
            self.compare_at(bytes, &printed, call, Some(odd))
                .map_err(|fault| Shown(format!("{odd} behind 8: {fault}"), bytes.to_vec()))?;
        }
        Ok(())
    }

    /// One call: the answer, and every entry of what is lent and of what stands
    /// behind it.
    fn compare(&mut self, bytes: &[u8], printed: &Printed, call: Call) -> Result<(), String> {
        self.compare_at(bytes, printed, call, None)
    }

    /// The same, with a page slice that starts so much behind a multiple of 8, and
    /// with what stands in front of it.
    fn compare_at(
        &mut self,
        bytes: &[u8],
        printed: &Printed,
        call: Call,
        odd: Option<usize>,
    ) -> Result<(), String> {
        self.tally.calls += 1;
        lend(&mut self.work, call.work, GARBAGE.0);
        let start = match odd {
            None => {
                lend(&mut self.pages, call.room, GARBAGE_BYTE);
                0
            }
            Some(odd) => {
                self.tally.odd += 1;
                lend(&mut self.pages, FRONT + 8 + odd + call.room, GARBAGE_BYTE);
                let behind = self.pages.as_ptr() as usize % 8;
                FRONT + (8 - behind) + odd
            }
        };
        let (work, pages) = (&mut self.work[..call.work], &mut self.pages[start..][..call.room]);
        let Answer { number, place } = ffi::pages(bytes, work, pages);
        let expected = printed.answer(call);
        let slices = format!("work slice of {}, page slice of {}", call.work, call.room);
        if (number, place) != (expected.number, expected.low) {
            let Whole { number: must, low, .. } = expected;
            return Err(format!(
                "{slices}: answer {number} with {place}, expected {must} with {low}"
            ));
        }
        check_slice("pages", &expected.pages, (&self.pages[start..], call.room, GARBAGE_BYTE))
            .and_then(|_| check_front("pages", &self.pages[..start], GARBAGE_BYTE))
            .and_then(|_| check_slice("work", &expected.work, (&self.work, call.work, GARBAGE.0)))
            .map_err(|fault| format!("{slices}: {fault}"))?;
        if number != 0 {
            *self.tally.refusals.entry(number).or_default() += 1;
        }
        Ok(())
    }

    /// The pages that the last call has left are as many lines of as many
    /// scalars as the reports ask for.
    fn layout(&mut self, bytes: &[u8], printed: &Printed) -> Result<(), String> {
        let (mut work, mut reports) = (vec![0; WORK], vec![0; 4 * printed.reports]);
        let Answer { number, place } = ffi::prove_all(bytes, &mut work, &mut reports);
        if number != 0 {
            return Err(format!("rl_prove_all refuses by {number}"));
        }
        let count = place as usize;
        let pages = std::str::from_utf8(&self.pages[..printed.pages.len()])
            .map_err(|fault| format!("the pages are not UTF-8: {fault}"))?;
        let mut lines = 0;
        for line in pages.split_inclusive('\n') {
            let scalars = line.strip_suffix('\n').map(|line| line.chars().count());
            if scalars != Some(COLUMNS) {
                return Err(format!(
                    "line {lines} is not {COLUMNS} columns and a newline: {line:?}"
                ));
            }
            lines += 1;
        }
        if lines != LINES * count.div_ceil(LINES) {
            return Err(format!("{lines} lines of {count} reports"));
        }
        for scalar in pages.chars() {
            self.tally.widths[scalar.len_utf8() - 1] += 1;
        }
        self.tally.reports += count;
        self.tally.pages += lines / LINES;
        self.tally.bytes += pages.len();
        self.tally.by_pages[(lines / LINES).min(2)] += 1;
        Ok(())
    }

    /// The listed images, those of the prover, and those of the reader that are
    /// at the limits or damaged.
    fn listed(&mut self, seed: u64) -> Result<(), Shown> {
        for bytes in images::listed().iter().map(encode) {
            self.image(&bytes)?;
            self.odd(&bytes)?;
        }
        for image in tried::proved().into_iter().chain(tried::slow()) {
            self.image(&encode(&image))?;
        }
        let damaged = tried::kinds(seed).chain(tried::bad_texts());
        for bytes in tried::limits().into_iter().chain(damaged) {
            self.image(&bytes)?;
        }
        for length in (65_536..65_536 + ENOUGH).chain([80_000]) {
            self.image(&vec![1; length])?;
        }
        Ok(())
    }

    /// So many generated images, and damaged copies of them.
    fn generated(&mut self, seed: u64, cases: usize) -> Result<(), Shown> {
        let (mut rng, until) = (Rng::new(seed), self.tally.images + cases);
        while self.tally.images < until {
            let image = match rng.below(6) {
                0 => tried::to_read(&mut rng),
                1 | 2 => tried::to_prove(&mut rng),
                _ => images::any(&mut rng),
            };
            self.image(&encode(&image))?;
            if rng.one_in(3) {
                self.image(&damage(&mut rng, &image))?;
            }
        }
        Ok(())
    }
}

fn main() -> ExitCode {
    let mut arguments = std::env::args().skip(1).map(|word| word.parse::<u64>().expect("a number"));
    let cases = arguments.next().unwrap_or(20_000) as usize;
    let seed = arguments.next().unwrap_or(1);
    let (tally, rng) = (Tally::default(), Rng::new(seed));
    let mut comparison = Comparison { tally, rng, work: Vec::new(), pages: Vec::new() };
    let done = comparison.listed(seed).and_then(|_| comparison.generated(seed, cases));
    if let Err(Shown(fault, bytes)) = done {
        println!("seed {seed}, image {}: {} bytes", comparison.tally.images, bytes.len());
        println!("rl_pages, {fault}");
        match std::fs::write(FILE, bytes) {
            Ok(()) => println!("the image is in {FILE}"),
            Err(fault) => println!("{FILE}: {fault}"),
        }
        return ExitCode::FAILURE;
    }
    comparison.tally.print();
    match comparison.tally.is_enough() {
        true => ExitCode::SUCCESS,
        false => ExitCode::FAILURE,
    }
}

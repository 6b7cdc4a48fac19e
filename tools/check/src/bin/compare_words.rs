//! `compare_words [PAIRS] [SEED]`: comparing texts byte by byte and by words
//! against Rust's own comparisons of slices, on listed pairs, on random ones
//! and on pairs as long as can be.

use check::texts::wrong;
use rlimg::image::LIMITS;
use rlimg::rng::Rng;
use std::cmp::Ordering;
use std::process::ExitCode;

/// Each outcome must have been seen so often.
const ENOUGH: usize = 50;
/// The longest listed and the longest random texts.
const LISTED: usize = 40;
const RANDOM: usize = 64;
/// Texts start at each offset below.
const OFFSETS: usize = 8;
/// What a byte apart may be.
const VALUES: [u8; 5] = [0, 1, 0x7f, 0x80, 0xff];
/// As many last lengths, and twice as many last bytes, of the longest texts.
const LAST: usize = 8;
/// What is shown of two texts from where they differ.
const SHOWN: usize = 24;

/// Two texts.
type Pair<'t> = [&'t [u8]; 2];

#[derive(Default)]
struct Tally {
    pairs: usize,
    /// Equal, less, greater.
    outcomes: [usize; 3],
}

/// A difference has been printed.
struct Differs;

impl Tally {
    fn compare(&mut self, [a, b]: Pair) -> Result<(), Differs> {
        self.pairs += 1;
        self.outcomes[match a.cmp(b) {
            Ordering::Equal => 0,
            Ordering::Less => 1,
            Ordering::Greater => 2,
        }] += 1;
        match wrong(a, b) {
            None => Ok(()),
            Some(name) => {
                show(name, [a, b]);
                Err(Differs)
            }
        }
    }

    /// A byte apart at every place, or none in what is compared; behind it,
    /// bytes that are the same or that all point the other way.
    fn listed(&mut self) -> Result<(), Differs> {
        for place in 0..LISTED {
            for values in VALUES.iter().flat_map(|a| VALUES.map(|b| [*a, b])) {
                let [a, b] = values;
                let other_way = if a < b { [0xff, 0] } else { [0, 0xff] };
                for later in [[b'z'; 2], other_way] {
                    self.apart(place, values, later)?;
                }
            }
        }
        Ok(())
    }

    /// All lengths of two texts that are the same up to a place, at offsets
    /// whose distance changes with the place.
    fn apart(&mut self, place: usize, values: [u8; 2], later: [u8; 2]) -> Result<(), Differs> {
        for offset in 0..OFFSETS {
            let offsets = [offset, (offset + place) % OFFSETS];
            let buffers = [0, 1].map(|side| {
                let mut buffer = vec![later[1 - side]; offsets[side]];
                buffer.extend((0..place).map(|at| 0x79 + at as u8));
                buffer.push(values[side]);
                buffer.resize(OFFSETS + LISTED, later[side]);
                buffer
            });
            for (a, b) in (0..=LISTED).flat_map(|a| (0..=LISTED).map(move |b| (a, b))) {
                let lengths = [a, b];
                let text = |side: usize| &buffers[side][offsets[side]..][..lengths[side]];
                self.compare([0, 1].map(text))?;
            }
        }
        Ok(())
    }

    /// Texts of few different bytes, the second mostly near the first.
    fn random(&mut self, rng: &mut Rng) -> Result<(), Differs> {
        let few = [(); 3].map(|()| rng.pick(&VALUES));
        let offsets = [(); 2].map(|()| rng.below(OFFSETS));
        let length = rng.below(RANDOM + 1);
        let first: Vec<u8> = (0..length).map(|_| rng.pick(&few)).collect();
        let mut second = first.clone();
        if rng.one_in(3) {
            second.resize_with(rng.below(RANDOM + 1), || rng.pick(&few));
        }
        for _ in 0..rng.below(3).min(second.len()) {
            let place = rng.below(second.len());
            second[place] = rng.pick(&few);
        }
        let texts = [first, second];
        let buffers =
            [0, 1].map(|side| [&vec![few[side]; offsets[side]], &texts[side][..]].concat());
        self.compare([0, 1].map(|side| &buffers[side][offsets[side]..]))
    }

    /// The last lengths that can be, one of the last bytes apart.
    fn long(&mut self) -> Result<(), Differs> {
        let alike = vec![0x79; LIMITS[0]];
        let lengths = LIMITS[0] + 1 - LAST..=LIMITS[0];
        for place in LIMITS[0] - 2 * LAST..LIMITS[0] {
            for value in VALUES {
                let mut apart = alike.clone();
                apart[place] = value;
                for (a, b) in lengths.clone().flat_map(|a| lengths.clone().map(move |b| (a, b))) {
                    self.compare([&alike[..a], &apart[..b]])?;
                    self.compare([&apart[..a], &alike[..b]])?;
                }
            }
        }
        Ok(())
    }
}

/// Where two texts differ, and what comes then.
fn show(name: &str, [a, b]: Pair) {
    let same = a.iter().zip(b).take_while(|(a, b)| a == b).count();
    let [left, right] = [a, b].map(|text| &text[same..text.len().min(same + SHOWN)]);
    println!(
        "{name} is wrong on {} and {} bytes: the same {same}, then {left:x?} and {right:x?}",
        a.len(),
        b.len()
    );
}

fn main() -> ExitCode {
    let mut arguments = std::env::args().skip(1).map(|word| word.parse::<u64>().expect("a number"));
    let pairs = arguments.next().unwrap_or(200_000);
    let seed = arguments.next().unwrap_or(1);
    let (mut tally, mut rng) = (Tally::default(), Rng::new(seed));
    let mut done = tally.listed().and_then(|()| tally.long());
    for _ in 0..pairs {
        done = done.and_then(|()| tally.random(&mut rng));
    }
    if let Err(Differs) = done {
        println!("compare_words: a difference with seed {seed}");
        return ExitCode::FAILURE;
    }
    let [equal, less, greater] = tally.outcomes;
    println!(
        "compare_words: {} pairs, 0 differ; equal: {equal}, less: {less}, greater: {greater}",
        tally.pairs
    );
    if tally.outcomes.into_iter().min() < Some(ENOUGH) {
        println!("something was seen fewer than {ENOUGH} times");
        return ExitCode::FAILURE;
    }
    ExitCode::SUCCESS
}

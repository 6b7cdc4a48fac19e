//! Words that are values, words that are none, and texts that are missing; by
//! calls that are refused for several causes, so that their order shows.

use crate::{call, Cases};
use rlimg::code::{self, Code};
use rlimg::encode::encode;
use rlimg::image::Image;
use rlimg::run::{Call, BUDGET, VALUES};

/// What stands around a plain value adds to the sort.
const AROUND: [u64; 3] = [0, 8, 16];
const PAST: [u64; 7] = [65_534, 65_535, 65_536, 65_537, 131_072, 1 << 32, u64::MAX];

/// A function of so many parameters that gives the first back.
fn first_of(count: usize) -> Image {
    code::image(&vec!["a"; count], |code: &mut Code| {
        let first = code.name("a");
        vec![code.bare(first)]
    })
}

impl Cases {
    pub fn words(&mut self) {
        let one = encode(&first_of(1));
        let large = [1 << 32, (1 << 32) + 1, 1 << 63, (1 << 63) + 1, u64::MAX];
        for sort in (0..=40).chain(large) {
            self.add(&one, &call(&[sort, 0], BUDGET));
        }
        for around in AROUND {
            for none in [[0, 1], [0, u64::MAX], [4, 2], [4, (1 << 32) + 1]] {
                self.refused(&one, [none[0] + around, none[1]]);
            }
            for text in PAST {
                self.add(&one, &call(&[3 + around, text], BUDGET));
            }
            self.refused(&one, [3 + around, 65_536]);
        }
        self.counts();
        self.several();
    }

    /// With a budget that is refused too, and by a function that is not there.
    fn refused(&mut self, image: &[u8], words: [u64; 2]) {
        let over = call(&words, BUDGET + 1);
        self.add(image, &over);
        self.add(image, &Call { function: 1, ..over });
    }

    /// Odd numbers of words, and as many values as there can be and more.
    fn counts(&mut self) {
        for (parameters, words) in [
            (0, 1),
            (1, 1),
            (1, 3),
            (2, 3),
            (VALUES, 31),
            (VALUES, 32),
            (VALUES, 33),
            (VALUES + 1, 33),
            (VALUES + 1, 34),
            (VALUES + 1, 35),
        ] {
            let words = [1, 7].repeat(VALUES + 2)[..words].to_vec();
            self.add(&encode(&first_of(parameters)), &call(&words, BUDGET));
        }
    }

    /// A missing text beside what is no value, and among as many as can be.
    fn several(&mut self) {
        let two = encode(&first_of(2));
        for words in [[3, 65_536, 4, 2], [4, 2, 3, 65_536], [1, 7, 19, 131_072], [1, 7, 3, 0]] {
            for (function, budget) in [(1, BUDGET + 1), (0, BUDGET + 1), (0, BUDGET)] {
                self.add(&two, &Call { function, ..call(&words, budget) });
            }
        }
        self.add(&two, &call(&[3, 65_536, 1], BUDGET));
        let most = encode(&first_of(VALUES));
        for last in [[3, 131_072], [5, 0], [4, 1]] {
            let values = [vec![[1, 7]; VALUES - 1], vec![last]].concat();
            self.add(&most, &call(&values.concat(), BUDGET));
        }
    }
}

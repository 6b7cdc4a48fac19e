//! Words that are handed to a run, listed: values, words that are none, and
//! texts that no image has. The refusals of each are here by the rules' table.

use crate::builder::Builder;
use crate::code::Code;
use crate::image::Image;
use crate::run::VALUES;

/// What words are, and so how they are refused.
#[derive(Debug, Clone, Copy, PartialEq, Eq)]
pub enum Kind {
    Values,
    /// No values, or more than a function may take.
    NoValues,
    /// Values, one of them a text that is missing.
    NoText,
}

impl Kind {
    /// All answers that such words can have in `image`, 0 for a run, where
    /// reading, the function, how many values it takes and the budget vary.
    pub fn answers(self) -> &'static [u32] {
        match self {
            Kind::Values => &[0, 1, 2, 3, 11, 19, 21],
            Kind::NoValues => &[1, 2, 3, 11, 19],
            Kind::NoText => &[1, 2, 3, 11, 19, 20],
        }
    }
}

/// Words by their name.
#[derive(Debug, Clone)]
pub struct Words {
    pub name: String,
    pub kind: Kind,
    pub words: Vec<u64>,
}

/// What stands around a plain value, and what it adds to the sort.
const AROUND: [(&str, u64); 3] = [("", 0), ("Ok of ", 8), ("Err of ", 16)];
/// A value that is right, to stand beside.
const RIGHT: [u64; 2] = [1, 7];

/// An image whose function of each number up to one more than the most values
/// has as many parameters, and gives the first back; it has two texts.
pub fn image() -> Image {
    let mut code = Code::new(Builder::new(1).interning());
    let node = code.name("a");
    let given = [code.give(node)];
    for count in 0..=VALUES + 1 {
        code.function(&vec!["a"; count], if count == 0 { &[] } else { &given });
    }
    code.builder.image
}

/// All of them.
pub fn listed() -> Vec<Words> {
    let pairs: Vec<Words> = sorts().into_iter().chain(payloads()).chain(texts()).collect();
    let mut all: Vec<Words> = pairs.iter().flat_map(beside).collect();
    all.extend(pairs);
    all.extend(counts());
    all.extend(together());
    all
}

fn words(name: String, kind: Kind, words: &[u64]) -> Words {
    Words { name, kind, words: words.to_vec() }
}

/// Every small sort and some large ones, with the payloads 0 and 1.
fn sorts() -> Vec<Words> {
    let around = |middle: u64| middle - 1..=middle + 20;
    let large = around(1 << 32).chain(around(1 << 63)).chain(u64::MAX - 8..=u64::MAX);
    let mut all = Vec::new();
    for sort in (0..=40).chain(large) {
        let is_plain = |sort: u64| sort <= 4;
        let there = AROUND.iter().any(|(_, more)| sort.checked_sub(*more).is_some_and(is_plain));
        for payload in [0, 1] {
            let is_value = there && (payload == 0 || sort % 8 != 0);
            let kind = if is_value { Kind::Values } else { Kind::NoValues };
            all.push(words(format!("sort {sort} with {payload}"), kind, &[sort, payload]));
        }
    }
    all
}

/// Payloads that a Null and a Bool do not have.
fn payloads() -> Vec<Words> {
    let mut all = Vec::new();
    for (around, more) in AROUND {
        for payload in [1, 2, 1 << 32, 1 << 63, u64::MAX] {
            let name = format!("{around}Null with {payload}");
            all.push(words(name, Kind::NoValues, &[more, payload]));
        }
        for payload in [2, 3, 256, 1 << 32, (1 << 32) + 1, u64::MAX] {
            let name = format!("{around}Bool with {payload}");
            all.push(words(name, Kind::NoValues, &[4 + more, payload]));
        }
    }
    all
}

/// Texts that the image has, and such as it has not: the low bits of some are
/// the number of one that it has.
fn texts() -> Vec<Words> {
    let missing = [2, 2_048, 65_534, 65_535, 65_536, 65_537, 131_072, 1 << 32, 1 << 63, u64::MAX];
    let mut all = Vec::new();
    for (around, more) in AROUND {
        for (kind, texts) in [(Kind::Values, &[0, 1][..]), (Kind::NoText, &missing)] {
            for text in texts {
                all.push(words(format!("{around}text {text}"), kind, &[3 + more, *text]));
            }
        }
    }
    all
}

/// The same words among as many values as there can be, first and last.
fn beside(pair: &Words) -> Vec<Words> {
    let at = |place: usize| {
        let mut values = vec![RIGHT; VALUES];
        values[place] = [pair.words[0], pair.words[1]];
        words(format!("{}, value {place} of 16", pair.name), pair.kind, &values.concat())
    };
    vec![at(0), at(VALUES - 1)]
}

/// Odd numbers of words, and as many values as there can be and more.
fn counts() -> Vec<Words> {
    let right = |count: usize| RIGHT.repeat(count / 2 + 1)[..count].to_vec();
    let odd = [1, 3, 5, 31, 33, 35, 63];
    let odd = odd.map(|count| words(format!("{count} words"), Kind::NoValues, &right(count)));
    let even = [0, 2, 4, 30, 32, 34, 36, 64].map(|count| {
        let kind = if count > 2 * VALUES { Kind::NoValues } else { Kind::Values };
        words(format!("{} values", count / 2), kind, &right(count))
    });
    odd.into_iter().chain(even).collect()
}

/// A missing text before and behind what is no value.
fn together() -> Vec<Words> {
    let both =
        |name: &str, pairs: &[[u64; 2]]| words(name.to_string(), Kind::NoValues, &pairs.concat());
    vec![
        both("a missing text, then a Bool of 2", &[[3, 65_536], [4, 2]]),
        both("a Bool of 2, then a missing text", &[[4, 2], [3, 65_536]]),
        both("a missing text, then sort 5", &[[19, 65_535], [5, 0]]),
        words("a missing text and half a value".to_string(), Kind::NoValues, &[3, 65_536, 1]),
        both("17 missing texts", &[[3, 131_072]; VALUES + 1]),
    ]
}

//! What the original Rust folds an image's expressions to, what it reports of
//! its calls, and what it makes of a function with contracts. Its files are
//! compiled from where they are; `stand_ins` has what they lean on.

mod const_val;
#[cfg(original)]
mod fields;
mod integers;
pub mod lower;
pub mod marked;
pub mod pairs;
pub mod picked;
#[cfg(original)]
mod prove;
mod rule;
pub mod shape;
#[cfg(original)]
mod stand_ins;
mod steps;
pub mod tables;

#[cfg(original)]
include!(concat!(env!("OUT_DIR"), "/original.rs"));

// The names under which the original's files know each other.
#[cfg(original)]
extern crate self as rl_ast;
#[cfg(original)]
extern crate self as rl_lexer;
#[cfg(original)]
extern crate self as rl_utils;
#[cfg(original)]
use {
    ast::{Ast, ExprId, arena, nodes, statements},
    stand_ins::{TypeChecker, span, tokentypes},
};

use rlimg::image::Image;
use rlimg::prove as independent;
use std::fmt;

/// Whether the original was there when this was built.
pub const HERE: bool = cfg!(original);
/// What a program says where it was not.
pub const NOT_HERE: &str = "the original is not here: nothing was compared with it";

/// What a program that has compared all else says of the original.
pub fn compared(what: &str) -> String {
    match HERE {
        true => format!("the original was compared: {what}"),
        false => NOT_HERE.to_string(),
    }
}

/// What `error` stored for one call.
#[derive(Debug, Clone, PartialEq, Eq)]
pub struct Report {
    pub call: u32,
    pub span: u32,
    pub message: String,
}

impl Report {
    /// A report of the lent slice; none where the image cannot have it.
    pub fn of(image: &Image, report: independent::Report) -> Option<Report> {
        let [call, span, ..] = report;
        Some(Report { call, span, message: independent::message(image, report)? })
    }
}

/// The printer's line, without its end.
impl fmt::Display for Report {
    fn fmt(&self, f: &mut fmt::Formatter<'_>) -> fmt::Result {
        write!(f, "{} {} {}", self.call, self.span, self.message)
    }
}

pub use const_val::{ConstVal, same_value};
pub use integers::with_integers;
pub use prove::Original;
pub use steps::{sizes, steps};

/// `prove_call` for each call in order, after `record_fn_contracts` for each
/// function in order, with small constants as Integer. The image is one that
/// the reader accepts; panics where the original is not `HERE`.
pub fn reports(image: &Image) -> Vec<Report> {
    Original::new(image).reports()
}

/// The reports as the printer's lines.
pub fn lines(image: &Image) -> String {
    lines_of(&reports(image))
}

/// The independent prover's reports, which need no original.
pub fn independent_reports(image: &Image) -> Vec<Report> {
    let said = |report| Report::of(image, report).expect("a report of the image");
    independent::reports(image).into_iter().map(said).collect()
}

/// They as the printer's lines.
pub fn independent_lines(image: &Image) -> String {
    lines_of(&independent_reports(image))
}

fn lines_of(reports: &[Report]) -> String {
    reports.iter().map(|report| format!("{report}\n")).collect()
}

#[cfg(not(original))]
mod prove {
    pub struct Original;

    impl Original {
        pub fn new(_: &crate::Image) -> Original {
            panic!("{}", crate::NOT_HERE)
        }

        pub fn reports(&mut self) -> Vec<crate::Report> {
            panic!("{}", crate::NOT_HERE)
        }

        pub fn const_eval(&self, _: usize) -> Option<crate::ConstVal> {
            panic!("{}", crate::NOT_HERE)
        }
    }
}

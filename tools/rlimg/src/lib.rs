//! The image format: records, bytes, text form, an independent reader, folder,
//! prover, pages, runner and lowering, and generators of accepted and damaged
//! images, of contracts, of reports on pages and of functions to be run and to be
//! lowered.

pub mod builder;
pub mod code;
pub mod damage;
pub mod decode;
pub mod deep;
pub mod edges;
pub mod encode;
pub mod fold;
pub mod hostile;
pub mod image;
pub mod lower;
pub mod lowerings;
pub mod pages;
pub mod prove;
pub mod random;
pub mod reader;
pub mod rng;
pub mod rules;
pub mod run;
pub mod runs;
pub mod schema;
pub mod small;
pub mod text;
pub mod texts;

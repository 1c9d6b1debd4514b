//! Evidence beside the proofs: a second checker, drawn pairs of sheets, an interpreter of the
//! language's steps, a second drill, a second replayer with drawn traces, and the calls of the product
//! that they are compared with.
//! "Document 01" in the comments is the specification of the two sheets and their answers, "document
//! 02" the list of requests that change it, cited by their numbers.

pub mod answer;
pub mod checking;
pub mod draw;
pub mod drill;
pub mod filling;
pub mod known;
pub mod pieces;
pub mod product;
pub mod replaying;
pub mod second;
pub mod series;
pub mod steps;
pub mod tally;
pub mod types;
pub mod words;

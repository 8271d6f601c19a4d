//! A second program for the rules of paper 01: readers, checkers and writers
//! for one BED line, one PSL line and one chain; strand conversion; lifting and
//! turning through a chain; a tally; batches of regions; and a reader of texts of numbers.
//!
//! It is written for clarity and not for speed. A text is split into a list of
//! lines, a line into a list of words, and a table of columns says how each word
//! is read and written. Sums are taken in wide integers, and a lift looks its
//! answer up among the chain's base pairs, listed one by one.

#![forbid(unsafe_code)]

pub mod bed;
pub mod chain;
pub mod columns;
pub mod ledger;
pub mod lift;
pub mod numbers;
pub mod psl;
pub mod rows;
pub mod text;

//! The Tenderchock library for Rust programs: BED lines, PSL lines and chains
//! are read, checked, written, lifted and turned, and texts of numbers are read,
//! by proved code. Each call ends with an answer or with a numbered refusal and
//! its place.
//!
//! ```
//! use tenderchock::{Bed, Kind};
//!
//! let text = b"chr22 1000 5000 cloneA 960 + 1000 5000 0 2 567,488, 0,3512";
//! let bed = Bed::parse(text).expect("a BED line");
//! assert_eq!(bed.chrom, b"chr22");
//! assert_eq!(bed.rows.len(), 2);
//!
//! let refusal = tenderchock::check(Kind::Bed, b"chr22 1,000 5000").unwrap_err();
//! assert_eq!((refusal.number, refusal.place), (4, 6));
//! ```

#![deny(unsafe_code)]

mod answer;
mod batch;
mod lift;
mod numbers;
mod records;
pub mod sys;
mod texts;

/// Whether the proofs of the library that is linked were checked, in words, as far as the build knows.
pub const PROOFS: &str = env!("TENDERCHOCK_PROOFS");

pub use answer::{meaning, Refusal};
pub use batch::{lift_batch, Batch};
pub use lift::{convert, lift_position, lift_region, turn};
pub use lift::{LiftedPosition, LiftedRegion, Tally};
pub use numbers::numbers;
pub use records::{Bed, Chain, Psl, Row, Strand};
pub use texts::{check, format, Kind, Room, BLOCK_LIMIT, TEXT_LIMIT};

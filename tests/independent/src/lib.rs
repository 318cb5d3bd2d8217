//! A second implementation of documents 01 and 02, as far as 02 has landed, written from these and
//! the call log format alone. It shares no code with the product, so that a slip in one shows as a
//! difference.
//!
//! It covers plant files, read and written, offers, the fact check, and boards with their report. A
//! board is there twice: by the definition, with a rule book that keeps every rule, and in a fast
//! form with a gap table. Its programs:
//!
//! - `generate SEED CALLS [KIND]` writes a call log to standard output. The kind is `read`,
//!   `board`, or `retire` for boards with retire. The lists that go through every limit take up to
//!   38,000 calls, and `compare` wants some 40,000 to have seen enough, of boards 70,000.
//! - `answer LOG` writes the answers of the fast form, for `compare` to hold against the definition.
//! - `compare LOG ANSWERS [KIND]` holds the answers that the product's replay of the log wrote
//!   against this implementation's, and fails on a difference or if the log showed too little.
//! - the package in `bench` times the product's calls from C beside the fast form and two others of
//!   its own; SF_LIB_DIR names the folder of `libfactcheck.a` and `libcabi.a`.
//! - the package in `soak` runs lists through the product's C interface and this implementation side
//!   by side in one process.

#![forbid(unsafe_code)]

pub mod board;
pub mod compare;
pub mod facts;
pub mod generate;
pub mod kind;
pub mod log;
pub mod offer;
pub mod plant;
pub mod replay;
pub mod ruling;
pub mod write;

pub use facts::{fact_check, fact_check_forward};
pub use plant::{allocations, check_plant};
pub use ruling::{Refusal, Ruling};
pub use write::write_plant;

//! Runs lists of calls through the product's C interface and through the second implementation side
//! by side, with no text in between, and compares all that can be seen of each call: the number, the
//! cause's value, every word of the board, the rows, every byte of a written plant file, and what
//! stands around each lent range. A list that shows a difference is shortened to the fewest items
//! that still do.
//!
//! The C interface is behind the trait `Product`, so that all of this is tested without it; only the
//! program links it.

#![forbid(unsafe_code)]

pub mod bytes;
pub mod case;
pub mod lender;
pub mod longer;
pub mod product;
pub mod range;
pub mod second;
pub mod shortest;
pub mod tally;
pub mod trial;
pub mod turns;
mod write;
pub mod writing;

#[cfg(test)]
mod dues;
#[cfg(test)]
mod stand_in;

//! Document 01, as amended by request #101, once more, written from its words alone.
//!
//! Nothing here was taken from the proved crates or their specifications, and nothing here is quick: the marks are
//! found by searching the whole tree for every element, so that a slip of the proved code or of its specification is
//! unlikely to be made here too. Each call gives, beside its answer, the causes of its number (`cause`), by which the
//! comparison tells what it has tried.

pub mod cause;
pub mod meaning;
pub mod one_pass;
pub mod program;
pub mod records;
pub mod tally;
pub mod tree;
pub mod typed;
pub mod whole;

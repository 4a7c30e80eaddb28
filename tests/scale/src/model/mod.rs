//! Document 01 read a second time: what every call answers and what it leaves in lent space.
//!
//! It was written from document 01 and the decided readings (docs/DECISIONS.md) alone, for clarity and not for speed,
//! and in another style than the library: a list is read into a tree of shared nodes, an answer is a row of bools or a
//! failure, a truth table is a map from rows to bools, and a refusal is an `Err` that leaves at once. So a slip made in
//! the library is not easily made here again. One file for one section of document 01.
//!
//! A slip of our own choosing can be switched on (`crate::slips`), to show that a run finds it.
pub mod answers;
pub mod calls;
pub mod canonical;
pub mod comparison;
pub mod evaluable;
pub mod list;
pub mod separation;
pub mod tables;
pub mod verification;

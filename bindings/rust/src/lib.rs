//! Safe calls of the network comparer's static library, `libpanel_c.a`. What each call answers, which numbers it refuses
//! with and in which order, is said in `include/panel.h`; here those words become types.
//!
//! A [`List`] is a network: its nodes, three words each, and a pool of child numbers; the last node is the root. The
//! library asks for work space ([`work_for`]), which is scratch: after a call it is all zeros, or unchanged where the call
//! was refused with [`Number::NotAligned`], [`Number::OverLimit`] or [`Number::LittleWork`].
//!
//! ```
//! use panel::{canonicalize, compare, evaluate, separate, verify, work_for};
//! use panel::{Answer, Check, Judgement, List, NodeAnswer};
//!
//! // And(v0, v1), and v0 alone
//! let gate = List { nodes: &[3, 0, 0, 3, 1, 0, 6, 0, 2], pool: &[0, 1] };
//! let wire = List { nodes: &[3, 0, 0], pool: &[] };
//! let mut work = vec![0; work_for(&[gate, wire])];
//! assert_eq!(verify(gate, &mut work), Ok(()));
//!
//! let mut out = [0; 6];
//! let evaluation = evaluate(gate, &[1, 1], &mut work, &mut out)?;
//! assert_eq!(evaluation.root, NodeAnswer::Value(1));
//!
//! // they differ at assignment 1, which drives v0 high and v1 low
//! let comparison = compare(gate, wire, &mut work)?;
//! assert_eq!(comparison.verdict, Check::NotEquiv);
//! assert_eq!(comparison.index, 1);
//! assert_eq!(comparison.first, Answer::Value { width: 1, value: 0 });
//! assert_eq!(comparison.second, Answer::Value { width: 1, value: 1 });
//!
//! // of two variables v1 is marked: with both high the gate is high, and low where v1 is cleared
//! let separation = separate(gate, 2, 0b10, &mut work)?;
//! assert_eq!(separation.judgement, Judgement::Crossing);
//! assert_eq!(separation.index, 3);
//! assert_eq!(separation.run, Answer::Value { width: 1, value: 1 });
//! assert_eq!(separation.cleared, Answer::Value { width: 1, value: 0 });
//!
//! // in canonical form the gate is a lookup table of program 8
//! let (mut nodes, mut pool) = ([0; 20], [0; 20]);
//! let canonical = canonicalize(gate, &mut work, &mut nodes, &mut pool)?;
//! assert_eq!(canonical.nodes, [1, 8, 0, 3, 0, 0, 3, 1, 0, 9, 0, 3]);
//! assert_eq!(canonical.pool, [0, 1, 2]);
//! let mut work = vec![0; work_for(&[gate, canonical])];
//! assert_eq!(compare(gate, canonical, &mut work)?.verdict, Check::Equiv);
//! # Ok::<(), panel::Error>(())
//! ```
//!
//! Nothing here panics over what the library hands back: a word that has no meaning in its place comes back as
//! [`Foreign`], an error of its own. A library that keeps its promises never causes it; one of another version may.
#![no_std]
#![deny(missing_docs)]

mod answers;
mod lists;
mod numbers;
mod raw;
mod tables;
pub mod words;

pub use answers::{Answer, Check, Comparison, Evaluation, Failure, Judgement, NodeAnswer, Separation};
pub use lists::{canonicalize, compare, evaluate, separate, verify, work_for, List};
pub use numbers::{Error, Foreign, Number, Refusal};
pub use tables::{
    cofactors_in_msb, eval_lut, eval_lut_bv, eval_lut_const_input, remove_lsb_var, swap_pos, to_bitvec, BitVector,
    Cofactors, LutBit, Removed, TableProgram,
};

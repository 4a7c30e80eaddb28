//! A stand-in for the crate egg: what the original touches of it, and no more.
//!
//! Assumed:
//! - a `RecExpr` is a list of nodes; `add` pushes one and looks at nothing (egg itself may look at the children in a
//!   debug build);
//! - an `Id` is a number; a `Symbol` is a text, and two are equal if their texts are;
//! - two nodes are equal if their kinds, their data and their children's numbers are;
//! - `children` are a node's numbers in order, `map_children` goes over them in order, `len` is how many there are.
//!
//! Not there: `EGraph` and `Runner` can't be made and do nothing. `get_program_in_egraph`, `get_operand_classes` and
//! `get_explanations` of the original compile against them; no command of the oracle calls these.

mod language;
mod unused;

pub use language::{CostFunction, Language, Part};
pub use unused::{Analysis, EClass, EGraph, Explanation, Runner};

use std::fmt;
use std::ops::Index;

#[derive(Debug, Clone, Copy, PartialEq, Eq, PartialOrd, Ord, Hash, Default)]
pub struct Id(usize);

impl From<usize> for Id {
    fn from(number: usize) -> Self {
        Self(number)
    }
}

impl From<Id> for usize {
    fn from(id: Id) -> Self {
        id.0
    }
}

#[derive(Debug, Clone, Copy, PartialEq, Eq, PartialOrd, Ord, Hash)]
pub struct Symbol(&'static str);

impl Symbol {
    pub fn new(text: &'static str) -> Self {
        Self(text)
    }

    pub fn as_str(&self) -> &'static str {
        self.0
    }
}

impl fmt::Display for Symbol {
    fn fmt(&self, to: &mut fmt::Formatter) -> fmt::Result {
        to.write_str(self.0)
    }
}

#[derive(Debug, Clone, PartialEq, Eq)]
pub struct RecExpr<L> {
    nodes: Vec<L>,
}

impl<L> Default for RecExpr<L> {
    fn default() -> Self {
        Self { nodes: Vec::new() }
    }
}

impl<L> RecExpr<L> {
    pub fn add(&mut self, node: L) -> Id {
        self.nodes.push(node);
        Id(self.nodes.len() - 1)
    }

    pub fn is_empty(&self) -> bool {
        self.nodes.is_empty()
    }
}

impl<L> From<Vec<L>> for RecExpr<L> {
    fn from(nodes: Vec<L>) -> Self {
        Self { nodes }
    }
}

impl<L> AsRef<[L]> for RecExpr<L> {
    fn as_ref(&self) -> &[L] {
        &self.nodes
    }
}

impl<L> Index<Id> for RecExpr<L> {
    type Output = L;

    fn index(&self, id: Id) -> &L {
        &self.nodes[id.0]
    }
}

/// For messages: the nodes in order, each with its children's numbers.
impl<L: Language + fmt::Display> fmt::Display for RecExpr<L> {
    fn fmt(&self, to: &mut fmt::Formatter) -> fmt::Result {
        for (number, node) in self.nodes.iter().enumerate() {
            write!(to, "{}{number}:{node}", if number > 0 { " " } else { "" })?;
            for child in node.children() {
                write!(to, ",{}", child.0)?;
            }
        }
        Ok(())
    }
}

//! What nodes answer, and what a comparison and a separation find.
use crate::numbers::{Error, Foreign};

/// Why a node has no value.
#[derive(Clone, Copy, Debug, PartialEq, Eq, Hash)]
pub enum Failure {
    /// An undriven variable: state 1.
    Undriven,
    /// A don't-care: state 2.
    DontCare,
    /// A register: state 3.
    Register,
    /// An argument: state 4.
    Argument,
}

/// A root's answer in a comparison or a separation.
#[derive(Clone, Copy, Debug, PartialEq, Eq, Hash)]
pub enum Answer {
    /// A value; the bits above its width are 0.
    Value {
        /// 0 to 64
        width: u64,
        /// The bits.
        value: u64,
    },
    /// No value.
    Failed(Failure),
}

/// A node's answer in an evaluation. A value is as wide as its node, which the library does not say again.
#[derive(Clone, Copy, Debug, PartialEq, Eq, Hash)]
pub enum NodeAnswer {
    /// A value: state 0.
    Value(u64),
    /// No value: states 1 to 4.
    Failed(Failure),
    /// A Program, or a node that the root does not reach: state 5.
    Unanswered,
}

/// An evaluation that was not refused.
#[derive(Clone, Copy, Debug, PartialEq, Eq)]
pub struct Evaluation<'a> {
    /// The last node's answer.
    pub root: NodeAnswer,
    /// The part of the output that was written: state and value of each node.
    pub pairs: &'a [u64],
}

impl<'a> Evaluation<'a> {
    pub(crate) fn of(pairs: &'a [u64]) -> Result<Evaluation<'a>, Foreign> {
        let [.., state, value] = *pairs else {
            return Err(Foreign(0));
        };
        let root = node_answer(state, value)?;
        Ok(Evaluation { root, pairs })
    }

    /// Every node's answer, in node order.
    pub fn answers(&self) -> impl Iterator<Item = Result<NodeAnswer, Foreign>> + 'a {
        self.pairs.chunks_exact(2).map(|pair| node_answer(pair[0], pair[1]))
    }
}

/// What a comparison finds.
#[derive(Clone, Copy, Debug, PartialEq, Eq, Hash)]
pub enum Check {
    /// Alike under every assignment, or equal trees.
    Equiv,
    /// Two values or widths differ.
    NotEquiv,
    /// A side has no value.
    Inconclusive,
}

/// A comparison that was not refused. For [`Check::Equiv`] all but the verdict is zero.
#[derive(Clone, Copy, Debug, PartialEq, Eq, Hash)]
pub struct Comparison {
    /// What was found.
    pub verdict: Check,
    /// The assignment that decided: bit j drives the j-th smallest variable below the first root.
    pub index: u64,
    /// The first root's answer there.
    pub first: Answer,
    /// The second root's answer there.
    pub second: Answer,
}

impl Comparison {
    /// The words behind number and node.
    pub(crate) fn of(words: [u64; 8]) -> Result<Comparison, Error> {
        let [verdict, index, state1, width1, value1, state2, width2, value2] = words;
        Ok(Comparison {
            verdict: check(verdict)?,
            index,
            first: answer(state1, width1, value1)?,
            second: answer(state2, width2, value2)?,
        })
    }
}

/// What a separation finds.
#[derive(Clone, Copy, Debug, PartialEq, Eq, Hash)]
pub enum Judgement {
    /// No run variable makes a difference.
    Separate,
    /// An assignment answers otherwise than itself with its run bits cleared.
    Crossing,
}

/// A separation that was not refused. For [`Judgement::Separate`] all but the judgement is zero.
#[derive(Clone, Copy, Debug, PartialEq, Eq, Hash)]
pub struct Separation {
    /// What was found.
    pub judgement: Judgement,
    /// The lowest assignment that crosses: bit v drives variable v.
    pub index: u64,
    /// The root's answer there.
    pub run: Answer,
    /// The root's answer there with the run bits cleared.
    pub cleared: Answer,
}

impl Separation {
    /// The words behind number and node.
    pub(crate) fn of(words: [u64; 8]) -> Result<Separation, Error> {
        let [word, index, state1, width1, value1, state2, width2, value2] = words;
        Ok(Separation {
            judgement: judgement(word)?,
            index,
            run: answer(state1, width1, value1)?,
            cleared: answer(state2, width2, value2)?,
        })
    }
}

// ---- from words

fn failure(state: u64) -> Result<Failure, Foreign> {
    match state {
        1 => Ok(Failure::Undriven),
        2 => Ok(Failure::DontCare),
        3 => Ok(Failure::Register),
        4 => Ok(Failure::Argument),
        _ => Err(Foreign(state)),
    }
}

/// A failure has width 0 and value 0; anything else there is foreign, so that no word is lost.
fn answer(state: u64, width: u64, value: u64) -> Result<Answer, Foreign> {
    match (state, width, value) {
        (0, ..) => Ok(Answer::Value { width, value }),
        (_, 0, 0) => failure(state).map(Answer::Failed),
        (_, 0, _) => Err(Foreign(value)),
        _ => Err(Foreign(width)),
    }
}

fn node_answer(state: u64, value: u64) -> Result<NodeAnswer, Foreign> {
    match (state, value) {
        (0, _) => Ok(NodeAnswer::Value(value)),
        (5, 0) => Ok(NodeAnswer::Unanswered),
        (_, 0) => failure(state).map(NodeAnswer::Failed),
        _ => Err(Foreign(value)),
    }
}

fn check(verdict: u64) -> Result<Check, Foreign> {
    match verdict {
        0 => Ok(Check::Equiv),
        1 => Ok(Check::NotEquiv),
        2 => Ok(Check::Inconclusive),
        _ => Err(Foreign(verdict)),
    }
}

fn judgement(word: u64) -> Result<Judgement, Foreign> {
    match word {
        0 => Ok(Judgement::Separate),
        1 => Ok(Judgement::Crossing),
        _ => Err(Foreign(word)),
    }
}

//! The calls over node lists.
use crate::answers::{Comparison, Evaluation, Separation};
use crate::numbers::{done_or_refused, Error, Foreign};
use crate::raw;
use crate::words::{NODE_WORDS, PAIR_WORDS, WORK_PER_NODE, WORK_PER_POOL};

/// A network: nodes of three words each (kind, first, count) and the child numbers that they share.
#[derive(Clone, Copy, Debug, PartialEq, Eq, Hash)]
pub struct List<'a> {
    /// Three words a node; the last node is the root.
    pub nodes: &'a [u32],
    /// The child numbers.
    pub pool: &'a [u32],
}

impl List<'_> {
    fn node_count(&self) -> usize {
        self.nodes.len() / NODE_WORDS
    }
}

/// How many words of work space a call over these lists asks.
pub fn work_for(lists: &[List]) -> usize {
    lists.iter().map(|list| WORK_PER_NODE * list.node_count() + WORK_PER_POOL * list.pool.len()).sum()
}

/// Whether a list is laid out as it should be and keeps the rules of verification; an empty list does.
///
/// Refused with 1, 2, 10, then 3 to 5, then 6.
pub fn verify(list: List, work: &mut [u64]) -> Result<(), Error> {
    let mut answer = [0; 2];
    // SAFETY: each pointer stands with its slice's own length, and the answer block has as many words as the call writes.
    unsafe {
        raw::panel_verify(
            list.nodes.as_ptr(),
            list.nodes.len(),
            list.pool.as_ptr(),
            list.pool.len(),
            work.as_mut_ptr(),
            work.len(),
            &mut answer,
        );
    }
    done_or_refused(answer[0], answer[1])
}

/// Every node's answer where byte v drives variable v: 0, 1, or 2 for undriven. A variable past the bytes is undriven.
///
/// The output needs two words a node; what is behind them is left as it was, and all of it where the call is refused.
/// Refused with 1, 2, 10, then 3 to 8, then 12, then 19.
pub fn evaluate<'a>(list: List, bytes: &[u8], work: &mut [u64], out: &'a mut [u64]) -> Result<Evaluation<'a>, Error> {
    let mut answer = [0; 2];
    // SAFETY: each pointer stands with its slice's own length, and the answer block has as many words as the call writes.
    unsafe {
        raw::panel_evaluate(
            list.nodes.as_ptr(),
            list.nodes.len(),
            list.pool.as_ptr(),
            list.pool.len(),
            bytes.as_ptr(),
            bytes.len(),
            work.as_mut_ptr(),
            work.len(),
            out.as_mut_ptr(),
            out.len(),
            &mut answer,
        );
    }
    done_or_refused(answer[0], answer[1])?;
    let pairs = out.get(..PAIR_WORDS * list.node_count()).ok_or(Foreign(answer[0]))?;
    Ok(Evaluation::of(pairs)?)
}

/// Whether two lists answer alike, and where they first do not.
///
/// Refused with 1 and 2 of either list, 10, then 3 to 8 of the first list, 3 to 8 of the second, then 9.
pub fn compare(first: List, second: List, work: &mut [u64]) -> Result<Comparison, Error> {
    let mut answer = [0; 10];
    // SAFETY: each pointer stands with its slice's own length, and the answer block has as many words as the call writes.
    unsafe {
        raw::panel_compare(
            first.nodes.as_ptr(),
            first.nodes.len(),
            first.pool.as_ptr(),
            first.pool.len(),
            second.nodes.as_ptr(),
            second.nodes.len(),
            second.pool.as_ptr(),
            second.pool.len(),
            work.as_mut_ptr(),
            work.len(),
            &mut answer,
        );
    }
    let [number, node, words @ ..] = answer;
    done_or_refused(number, node)?;
    Comparison::of(words)
}

/// Whether what a list answers depends on its run variables: those v below `n` for which bit v of `marks` is 1. Bit v of
/// an assignment's index drives variable v, for 2^n assignments; each is held against itself with its run bits cleared.
///
/// Refused with 1, 2, 10, then 3 to 8, then 11: `n` above 30, a variable at `n` or above anywhere in the list, reached by
/// the root or not, or a mark at bit `n` or above.
pub fn separate(list: List, n: u32, marks: u32, work: &mut [u64]) -> Result<Separation, Error> {
    let mut answer = [0; 10];
    // SAFETY: each pointer stands with its slice's own length, and the answer block has as many words as the call writes.
    unsafe {
        raw::panel_separate(
            list.nodes.as_ptr(),
            list.nodes.len(),
            list.pool.as_ptr(),
            list.pool.len(),
            n,
            marks,
            work.as_mut_ptr(),
            work.len(),
            &mut answer,
        );
    }
    let [number, node, words @ ..] = answer;
    done_or_refused(number, node)?;
    Separation::of(words)
}

/// The canonical list of a list: gates as lookup tables, these folded as far as they go, each distinct subtree once. It is
/// written from the first place of each output on, and handed back as these parts of them, ready for another call.
///
/// 12,288 words and 16,384 entries hold any answer. What is behind it is left as it was, and all of both outputs where the
/// call is refused. Refused with 1, 2, 10, then 3 to 8, then 14: a gate that the root reaches and that is not a bit; then
/// 19: an output that is too short, or a canonical list above the limits, however long the outputs are.
pub fn canonicalize<'a>(
    list: List,
    work: &mut [u64],
    out_nodes: &'a mut [u32],
    out_pool: &'a mut [u32],
) -> Result<List<'a>, Error> {
    let mut answer = [0; 4];
    // SAFETY: each pointer stands with its slice's own length, and the answer block has as many words as the call writes.
    unsafe {
        raw::panel_canonicalize(
            list.nodes.as_ptr(),
            list.nodes.len(),
            list.pool.as_ptr(),
            list.pool.len(),
            out_nodes.as_mut_ptr(),
            out_nodes.len(),
            out_pool.as_mut_ptr(),
            out_pool.len(),
            work.as_mut_ptr(),
            work.len(),
            &mut answer,
        );
    }
    let [number, node, node_words, pool_words] = answer;
    done_or_refused(number, node)?;
    Ok(List { nodes: written(out_nodes, node_words)?, pool: written(out_pool, pool_words)? })
}

/// The part of an output that an answer says was written; more than there is, is foreign.
fn written(out: &[u32], words: u64) -> Result<&[u32], Foreign> {
    usize::try_from(words).ok().and_then(|count| out.get(..count)).ok_or(Foreign(words))
}

//! Boundaries, written by hand: they are the same in every run and come first.
mod examples;
mod large;
mod orders;
mod small;
mod tables;

use super::draft::{Draft, Node};
use crate::case::{Call, Case};
use crate::model::calls::canonical_of;
use crate::model::list::List;

/// All boundary cases of the calls that are asked for. Small lists come first, so that a fault is shown by a small one.
pub fn cases(is_asked: impl Fn(Call) -> bool) -> Vec<Case> {
    let mut cases = Vec::new();
    tables::add(&mut cases);
    examples::add(&mut cases);
    small::add(&mut cases);
    orders::add(&mut cases);
    large::add(&mut cases);
    cases.retain(|case| is_asked(case.call));
    cases
}

// ---- lists

fn variable(number: u32) -> List {
    List { nodes: vec![3, number, 0], pool: Vec::new() }
}

/// A gate of a kind over leaves.
fn over(kind: u32, leaves: &[Node]) -> List {
    let mut draft = Draft { nodes: leaves.to_vec() };
    let all: Vec<usize> = (0..leaves.len()).collect();
    draft.gate(kind, &all);
    draft.packed()
}

fn v(number: u32) -> Node {
    Node::leaf(3, number, 0)
}

fn bit(value: u32) -> Node {
    Node::leaf(0, value, 0)
}

fn dont_care() -> Node {
    Node::leaf(2, 0, 0)
}

// ---- cases with exactly what they ask

fn exact(call: Call, list: &List) -> Case {
    let mut case = Case::new(call);
    case.lists[0] = list.clone();
    lend_exactly(&mut case);
    case
}

fn lend_exactly(case: &mut Case) {
    case.work = case.work_asked();
    match case.call {
        Call::Evaluate => case.out = 2 * case.lists[0].node_count(),
        Call::Canonicalize => {
            let answer = canonical_of(&case.lists[0]).unwrap_or_default();
            case.out = answer.nodes.len();
            case.out_pool = answer.pool.len();
        }
        _ => {}
    }
}

fn verified(list: &List) -> Case {
    exact(Call::Verify, list)
}

fn evaluated(list: &List, bytes: &[u8]) -> Case {
    let mut case = exact(Call::Evaluate, list);
    case.bytes = bytes.to_vec();
    case
}

fn compared(first: &List, second: &List) -> Case {
    let mut case = Case::new(Call::Compare);
    case.lists = [first.clone(), second.clone()];
    lend_exactly(&mut case);
    case
}

fn separated(list: &List, n: u32, marks: u32) -> Case {
    let mut case = exact(Call::Separate, list);
    case.numbers = [u64::from(n), u64::from(marks), 0];
    case
}

fn canonicalized(list: &List) -> Case {
    exact(Call::Canonicalize, list)
}

/// A list in every call: with itself and with v0 in a comparison.
fn in_every_call(list: &List, cases: &mut Vec<Case>) {
    let other = variable(0);
    cases.push(verified(list));
    cases.push(evaluated(list, &[1, 0, 1, 1, 0, 0, 1, 0]));
    cases.push(compared(list, list));
    cases.push(Case { lent_once: true, ..compared(list, list) });
    cases.push(compared(list, &other));
    cases.push(compared(&other, list));
    cases.push(separated(list, 30, 1));
    cases.push(canonicalized(list));
}

/// A case with each of its lent lengths none, one short, exact, one and seventeen more.
fn with_all_lengths(case: &Case, cases: &mut Vec<Case>) {
    for (less, more) in [(usize::MAX, 0), (1, 0), (0, 0), (0, 1), (0, 17)] {
        let near = |exact: usize| exact.saturating_sub(less) + more;
        cases.push(Case { work: near(case.work), ..case.clone() });
        cases.push(Case { out: near(case.out), ..case.clone() });
        cases.push(Case { out_pool: near(case.out_pool), ..case.clone() });
        cases.push(Case { work: near(case.work), out: near(case.out), out_pool: near(case.out_pool), ..case.clone() });
    }
}

//! Document 01, "Comparison and separation": the comparison, and number 9.
use super::answers::{words, Answer, Answers};
use super::evaluable::Sound;
use super::list::{refuse, Op, Refusal, Tree};
use super::verification::Reach;
use crate::slips::{slips, Slip};
use std::collections::{BTreeSet, HashSet};
use std::rc::Rc;

const EQUIV: u64 = 0;
const NOT_EQUIV: u64 = 1;
pub const INCONCLUSIVE: u64 = 2;

/// Verdict, index and both answers, as the C interface writes them behind number and node.
pub type Found = [u64; 8];

pub fn compare(first: &Sound, second: &Sound) -> Result<Found, Refusal> {
    if same_tree(&first.root, &second.root, &mut HashSet::new()) {
        return Ok([EQUIV, 0, 0, 0, 0, 0, 0, 0]);
    }
    let variables: Vec<u32> = variables(&first.reach).into_iter().collect();
    if variables.len() == 31 && slips(Slip::ThirtyOneTried) {
        return Ok([EQUIV, 0, 0, 0, 0, 0, 0, 0]);
    }
    if variables.len() > 30 {
        return refuse(9);
    }
    Ok(decide(first, second, &variables))
}

/// The first assignment at which the sides don't have one equal value decides.
fn decide(first: &Sound, second: &Sound, variables: &[u32]) -> Found {
    for index in 0..1u64 << variables.len() {
        let a = answer_at(first, variables, index);
        let b = answer_at(second, variables, index);
        let fails = a.is_err() || b.is_err();
        if (fails && !slips(Slip::SearchesPastFailure)) || (!fails && !equal_values(&a, &b)) {
            let verdict = if fails { INCONCLUSIVE } else { NOT_EQUIV };
            let ([s1, w1, v1], [s2, w2, v2]) = (words(&a), words(&b));
            return [verdict, index, s1, w1, v1, s2, w2, v2];
        }
    }
    [EQUIV, 0, 0, 0, 0, 0, 0, 0]
}

fn equal_values(a: &Answer, b: &Answer) -> bool {
    a == b || (slips(Slip::WidthsDoNotCount) && words(a)[2] == words(b)[2])
}

/// The root's answer where bit j of the index drives the j-th of the variables and no other is driven.
fn answer_at(sound: &Sound, variables: &[u32], index: u64) -> Answer {
    let highest_first = slips(Slip::HighestVariableFirst);
    let driven = |variable: u32| {
        let place = variables.iter().position(|&v| v == variable)?;
        let bit = if highest_first { variables.len() - 1 - place } else { place };
        Some(index >> bit & 1 == 1)
    };
    Answers::new(sound.trees.len(), &driven).of(&sound.root)
}

/// The variables that the root reaches.
pub fn variables(reach: &Reach) -> BTreeSet<u32> {
    let variable = |op| if let Op::Var(variable) = op { Some(variable) } else { None };
    reach.values().filter_map(|reached| variable(reached.tree.op)).collect()
}

/// Equal trees, as they are given. A pair that was found equal is not walked again.
fn same_tree(a: &Rc<Tree>, b: &Rc<Tree>, equal: &mut HashSet<(usize, usize)>) -> bool {
    if equal.contains(&(a.place, b.place)) {
        return true;
    }
    let same = a.op == b.op
        && a.operands.len() == b.operands.len()
        && a.operands.iter().zip(&b.operands).all(|(a, b)| same_tree(a, b, equal));
    if same {
        equal.insert((a.place, b.place));
    }
    same
}

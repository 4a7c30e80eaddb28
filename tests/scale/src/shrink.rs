//! A smaller case that still differs: words dropped, set to 0 or halved as long as the difference stays.
use crate::case::Case;
use crate::model::list::List;
use crate::trial::try_case;

/// Cases tried before the smallest so far must do.
const MOST_TRIALS: usize = 4000;

pub fn shrink(case: &Case) -> Case {
    let mut best = case.clone();
    let mut trials = 0;
    while trials < MOST_TRIALS {
        let smaller = candidates(&best).into_iter().find(|candidate| {
            trials += 1;
            trials <= MOST_TRIALS && !try_case(candidate).faults.is_empty()
        });
        match smaller {
            Some(case) => best = case,
            None => break,
        }
    }
    best
}

/// Each a step smaller than the case, so that shrinking ends.
fn candidates(case: &Case) -> Vec<Case> {
    let mut candidates = Vec::new();
    for place in 0..case.call.lists() {
        for list in smaller_lists(&case.lists[place]) {
            let mut candidate = case.clone();
            candidate.lists[place] = list;
            if case.lent_once {
                candidate.lists[1 - place] = candidate.lists[place].clone();
            }
            candidates.push(with_work_moved(case, candidate));
        }
    }
    if !case.bytes.is_empty() {
        candidates.push(Case { bytes: case.bytes[..case.bytes.len() - 1].to_vec(), ..case.clone() });
    }
    for number in 0..3 {
        let mut candidate = case.clone();
        candidate.numbers[number] /= 2;
        candidates.push(candidate);
    }
    candidates.retain(|candidate| candidate != case);
    candidates
}

/// As much over or under what is asked as before.
fn with_work_moved(case: &Case, mut candidate: Case) -> Case {
    let (before, now) = (case.work_asked(), candidate.work_asked());
    candidate.work = (case.work + now).saturating_sub(before);
    candidate
}

fn smaller_lists(list: &List) -> Vec<List> {
    let count = list.node_count();
    let mut lists: Vec<List> = (0..count).rev().map(|node| without_node(list, node)).collect();
    let cut = |nodes: usize| List { nodes: list.nodes[..nodes].to_vec(), pool: list.pool.clone() };
    lists.extend([list.nodes.len() / 2, list.nodes.len().saturating_sub(1)].map(cut));
    if !list.pool.is_empty() {
        let shorter = |entries: usize| List { nodes: list.nodes.clone(), pool: list.pool[..entries].to_vec() };
        lists.extend([list.pool.len() / 2, list.pool.len() - 1].map(shorter));
    }
    lists.retain(|smaller| smaller != list);
    lists
}

/// The nodes behind it move down, and so do their children's numbers.
fn without_node(list: &List, node: usize) -> List {
    let mut smaller = list.clone();
    smaller.nodes.drain(3 * node..3 * node + 3);
    for child in &mut smaller.pool {
        *child -= u32::from(*child as usize > node);
    }
    smaller
}

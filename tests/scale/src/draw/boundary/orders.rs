//! Lists with one fault each, in every pair and with every other thing wrong: which refusal comes first.
use super::examples::{bus, list_of};
use super::*;

pub fn add(cases: &mut Vec<Case>) {
    let lists = faulty();
    for first in &lists {
        for second in &lists {
            let case = compared(first, second);
            cases.push(Case { work: case.work.saturating_sub(1), ..case.clone() });
            cases.push(case);
        }
        other_calls(first, cases);
    }
    two_faults(cases);
    wide_gates(cases);
}

/// One list for each of the numbers 0 to 8.
fn faulty() -> Vec<List> {
    let words = |nodes: &[u32], pool: &[u32]| List { nodes: nodes.to_vec(), pool: pool.to_vec() };
    vec![
        over(6, &[v(0), v(1)]),
        words(&[3, 0, 0, 3], &[]),
        words(&[3, 0, 0, 3, 1], &[]),
        words(&[3, 0, 0].repeat(4097), &[]),
        words(&[3, 0, 0], &[0; 16385]),
        words(&[3, 0, 0, 17, 0, 0], &[]),
        words(&[3, 0, 0, 3, 0, 1], &[]),
        words(&[3, 0, 0, 8, 0, 1], &[1]),
        over(9, &[v(0)]),
        List::default(),
        over(8, &[Node::program(0)]),
        words(&[3, 0, 0].repeat(4097)[..12290], &[0; 16385]),
    ]
}

/// Each fault with bytes, n, marks and outputs that are wrong too.
fn other_calls(list: &List, cases: &mut Vec<Case>) {
    for bytes in [&[0u8, 1][..], &[3], &[0; 257]] {
        with_all_lengths(&evaluated(list, bytes), cases);
    }
    for (n, marks) in [(2, 2), (1, 1), (2, 4), (31, 0)] {
        with_all_lengths(&separated(list, n, marks), cases);
    }
    with_all_lengths(&canonicalized(list), cases);
    with_all_lengths(&verified(list), cases);
}

/// Node by node: each of a few faults at node 1 and each at node 2.
fn two_faults(cases: &mut Vec<Case>) {
    let faults: [[u32; 3]; 9] =
        [[17, 0, 0], [0, 2, 0], [6, 0, 1], [8, 2, 1], [8, 0, 1], [8, 3, 1], [9, 1, 1], [10, 9, 0], [6, 4, 2]];
    for first in faults {
        for second in faults {
            let nodes = [&[3, 0, 0], &first[..], &second[..]].concat();
            in_every_call(&List { nodes, pool: vec![2, 0, 1, 7, 0, 0] }, cases);
        }
    }
}

/// 14 against 8, 19 and what folding would drop.
fn wide_gates(cases: &mut Vec<Case>) {
    let below = [v(0), bus(&[0]), bus(&[0, 0]), bit(1)];
    let gates = [
        vec![Node::over(8, vec![1])],
        vec![Node::over(8, vec![2]), Node::over(8, vec![4])],
        vec![Node::over(5, vec![3, 2, 2])],
        vec![Node::over(6, vec![1, 1]), Node::over(11, vec![4, 4, 4, 4])],
        vec![Node::over(8, vec![2]), Node::over(6, vec![4, 0])],
        vec![Node::over(8, vec![2]), Node::over(8, vec![0])],
    ];
    for gate in gates {
        let list = list_of(&[&below[..], &gate].concat());
        with_all_lengths(&canonicalized(&list), cases);
        let mut case = canonicalized(&list);
        (case.out, case.out_pool) = (100, 100);
        with_all_lengths(&case, cases);
    }
}

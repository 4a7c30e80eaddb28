//! The examples of document 01, and the smallest inputs of docs/DECISIONS.md and docs/DIFFERENCES.md.
use super::*;

pub fn add(cases: &mut Vec<Case>) {
    comparisons(cases);
    separations(cases);
    for list in lists() {
        in_every_call(&list, cases);
        with_all_lengths(&canonicalized(&list), cases);
        with_all_lengths(&evaluated(&list, &[1, 0, 2]), cases);
        with_all_lengths(&verified(&list), cases);
        with_all_lengths(&separated(&list, 4, 2), cases);
        with_all_lengths(&compared(&list, &variable(1)), cases);
    }
}

fn lists() -> Vec<List> {
    let not = |nodes: &[Node]| {
        let mut draft = Draft { nodes: nodes.to_vec() };
        draft.gate(8, &[nodes.len() - 1]);
        draft.packed()
    };
    vec![
        List::default(),
        over(6, &[v(0), v(1)]),
        over(5, &[bit(1), v(0), v(1)]),
        over(10, &[v(0), v(1)]),
        over(6, &[bit(0), dont_care()]),
        over(4, &[dont_care(), bit(1)]),
        over(6, &[bit(1), dont_care()]),
        over(5, &[bit(0), dont_care(), bit(1)]),
        not(&[v(1)]),
        not(&[Node::program(0)]),
        not(&[v(0), v(1), Node::over(10, vec![0, 1])]),
        list_of(&[bit(1), Node::program(2), Node::over(9, vec![1, 0]), Node::over(8, vec![2])]),
        list_of(&[v(0), bit(1), Node::program(2), Node::over(9, vec![2, 1]), Node::program(8), lut(&[4, 0, 3])]),
        list_of(&[dont_care(), bit(0), Node::program(2), lut(&[2, 1]), Node::program(8), lut(&[4, 0, 3])]),
        list_of(&[bit(0), Node::program(4), lut(&[1, 0, 0]), Node::over(8, vec![2])]),
        list_of(&[v(0), Node::program(3), lut(&[1, 0]), lut(&[1, 0, 2])]),
        list_of(&[v(1), Node::over(8, vec![0]), v(0), Node::over(6, vec![1, 2])]),
        list_of(&[v(9), Node::over(10, vec![]), Node::over(5, vec![0, 1, 1]), Node::over(6, vec![1, 2])]),
        list_of(&[v(9), Node::over(10, vec![]), Node::over(5, vec![0, 1, 1]), Node::over(4, vec![1, 2])]),
        list_of(&[v(9), Node::over(10, vec![]), Node::over(5, vec![0, 1, 1]), Node::over(7, vec![1, 2])]),
        list_of(&[Node::program(0), lut(&[0]), Node::over(15, vec![0]), bus(&[1, 2]), Node::over(16, vec![3])]),
        list_of(&[v(0), v(1), bus(&[0]), bus(&[1]), bit(1), Node::over(5, vec![4, 2, 3])]),
        list_of(&[bus(&[]), v(0), Node::over(11, vec![0, 0, 0, 1])]),
        List { nodes: vec![9, 0, 0, 3, 0, 0], pool: vec![] },
        List { nodes: vec![8, 0, 1, 3, 0, 0], pool: vec![0] },
    ]
}

pub fn list_of(nodes: &[Node]) -> List {
    Draft { nodes: nodes.to_vec() }.packed()
}

pub fn lut(children: &[usize]) -> Node {
    Node::over(9, children.to_vec())
}

pub fn bus(members: &[usize]) -> Node {
    Node::over(10, members.to_vec())
}

fn comparisons(cases: &mut Vec<Case>) {
    let mux = over(5, &[v(0), dont_care(), bit(1)]);
    let constant = |value| list_of(&[bit(value)]);
    let pairs = [
        (variable(0), list_of(&[dont_care()])),
        (mux.clone(), constant(1)),
        (mux, constant(0)),
        (over(6, &[v(0), v(1)]), variable(0)),
        (constant(0), over(6, &[bit(0), v(5)])),
        (variable(0), over(10, &[v(0)])),
        (variable(0), over(10, &[bit(0), v(0)])),
        (over(16, &[dont_care()]), list_of(&[dont_care()])),
        (over(8, &[dont_care()]), list_of(&[dont_care()])),
        (variable(0), variable(1)),
        (over(10, &[]), over(10, &[])),
        (over(10, &[]), list_of(&[bus(&[]), Node::over(8, vec![0])])),
        (over(10, &[]), constant(0)),
    ];
    for (first, second) in pairs {
        with_all_lengths(&compared(&first, &second), cases);
        cases.push(compared(&second, &first));
    }
}

fn separations(cases: &mut Vec<Case>) {
    let register = Node::over(12, vec![0, 0, 0, 0]);
    let chosen = |arm: usize, other: usize| Node::over(5, vec![1, arm, other]);
    let failing = [v(0), v(1), dont_care(), register.clone(), Node::program(0), Node::over(15, vec![4])];
    let under_cycle = |gate: Node| list_of(&[&failing[..], &[gate, Node::over(16, vec![6])]].concat());
    let lists = [
        under_cycle(chosen(2, 3)),
        under_cycle(chosen(3, 5)),
        under_cycle(chosen(5, 2)),
        under_cycle(chosen(3, 3)),
        under_cycle(chosen(0, 5)),
        over(6, &[v(0), v(1)]),
        over(5, &[v(1), dont_care(), v(0)]),
        list_of(&[v(0), v(1), Node::over(7, vec![1, 1]), Node::over(6, vec![0, 2])]),
        list_of(&[v(0), v(1), dont_care(), register, Node::over(5, vec![1, 2, 3])]),
        variable(0),
        list_of(&[bit(1)]),
        list_of(&[v(29), bit(0)]),
    ];
    for list in &lists {
        for n in [0, 1, 2, 3, 29, 30, 31, 32, 33, 1 << 31, u32::MAX] {
            let at = |bit: u32| 1u32.checked_shl(bit).unwrap_or(0);
            for marks in [0, 1, 2, 3, at(n), at(n.saturating_sub(1)), 1 << 29, 1 << 30, 1 << 31, u32::MAX] {
                cases.push(separated(list, n, marks));
            }
        }
    }
}

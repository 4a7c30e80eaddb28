//! One node of every kind and every field, Luts and Buses of every length, Args under Cycles, variables and bytes.
use super::examples::{bus, list_of, lut};
use super::*;
use crate::draw::draft::draft_of;

pub fn add(cases: &mut Vec<Case>) {
    fields_of_every_kind(cases);
    operands_of_every_kind(cases);
    luts(cases);
    buses(cases);
    args(cases);
    assignments(cases);
    many_variables(cases);
    bounds(cases);
}

/// Eight leaves, a pool of eight, and behind them one node whose fields are anything.
fn fields_of_every_kind(cases: &mut Vec<Case>) {
    let leaves = [1, 8, 0, 3, 0, 0, 3, 1, 0, 0, 0, 0, 2, 0, 0, 1, 0, 0, 3, 255, 0, 0, 1, 0];
    let fields = [0, 1, 2, 3, 4, 5, 7, 8, 9, 64, 65, 255, 256, 0x7fff_ffff, 0x8000_0000, 0xffff_fff8, 0xffff_ffff];
    for kind in (0..=18).chain([0x8000_0000, 0xffff_ffff]) {
        for first in fields {
            for count in fields {
                let nodes = [&leaves[..], &[kind, first, count]].concat();
                let list = List { nodes, pool: vec![0, 1, 2, 3, 4, 6, 7, 1] };
                cases.push(verified(&list));
                cases.push(evaluated(&list, &[1, 0]));
            }
        }
    }
}

/// Every operator over operands of every shape: bits, buses of 0, 1 and 2, a Program; each in each place.
fn operands_of_every_kind(cases: &mut Vec<Case>) {
    let below = [v(0), dont_care(), bus(&[]), bus(&[0]), bus(&[0, 1]), Node::program(1), Node::over(8, vec![4])];
    for (kind, count) in [(4, 2), (5, 3), (6, 2), (7, 2), (8, 1), (9, 2), (9, 3), (10, 2), (11, 4), (15, 1), (16, 1)] {
        for number in 0..below.len().pow(count) {
            let digit = |place: u32| number / below.len().pow(place) % below.len();
            let children = (0..count).map(digit).collect();
            let list = list_of(&[&below[..], &[Node::over(kind, children)]].concat());
            cases.push(verified(&list));
            cases.push(evaluated(&list, &[1]));
            cases.push(canonicalized(&list));
            cases.push(compared(&list, &variable(0)));
        }
    }
}

/// k from 0 to 7, with the program at the end of its range and one below.
fn luts(cases: &mut Vec<Case>) {
    for k in 0..=8 {
        let end = 1u128 << (1 << k.min(6));
        for program in [0, 1, end - 2, end - 1, end, end + 1] {
            let leaves: Vec<Node> = (0..k).map(v).chain([Node::program(program as u64)]).collect();
            let children: Vec<usize> = [k as usize].into_iter().chain(0..k as usize).collect();
            in_every_call(&list_of(&[leaves, vec![lut(&children)]].concat()), cases);
        }
    }
    in_every_call(&List { nodes: vec![9, 0, 0], pool: vec![] }, cases);
    in_every_call(&over(9, &[v(0)]), cases);
    in_every_call(&over(9, &[bit(1), Node::program(1)]), cases);
}

fn buses(cases: &mut Vec<Case>) {
    for count in [0, 1, 2, 31, 32, 33, 63, 64, 65] {
        let members: Vec<Node> = (0..count).map(|place| v(place % 5)).collect();
        let list = over(10, &members);
        in_every_call(&list, cases);
        let mut draft = Draft { nodes: members };
        let root = draft.gate(10, &(0..count as usize).collect::<Vec<_>>());
        let not = draft.gate(8, &[root]);
        for kind in [4, 6, 7] {
            let mut gate = draft.clone();
            gate.gate(kind, &[root, not]);
            in_every_call(&gate.packed(), cases);
        }
    }
}

/// An Arg under none to three Cycles, and reached both ways.
fn args(cases: &mut Vec<Case>) {
    for index in [0, 1, 2, 3, 1 << 31, 1 << 32, u64::MAX] {
        for cycles in 0..=3 {
            let mut draft = Draft { nodes: vec![Node::program(index), Node::over(15, vec![0])] };
            let top = (0..cycles).fold(1, |child, _| draft.gate(16, &[child]));
            in_every_call(&draft.packed(), cases);
            for pair in [[top, 1], [1, top]] {
                let mut both = draft.clone();
                let gate = both.gate(6, &pair);
                in_every_call(&both.packed(), cases);
                both.gate(16, &[gate]);
                in_every_call(&both.packed(), cases);
            }
        }
    }
}

/// Bytes of every length at which something changes, and the byte above the last at either end.
fn assignments(cases: &mut Vec<Case>) {
    for variable in [0, 1, 254, 255] {
        let list = list_of(&[v(variable)]);
        for count in [0, 1, 2, 254, 255, 256, 257, 1000] {
            for (byte, place) in [(0, 0), (1, 0), (2, 0), (3, 0), (255, 0), (3, count), (2, count), (1, count)] {
                let mut bytes = vec![1; count];
                if let Some(changed) = bytes.get_mut(place.min(count.saturating_sub(1))) {
                    *changed = byte;
                }
                cases.push(evaluated(&list, &bytes));
            }
        }
    }
}

fn bus_of(variables: impl Iterator<Item = u32>) -> List {
    over(10, &variables.map(v).collect::<Vec<_>>())
}

/// 29 to 33 and more variables below the first root.
fn many_variables(cases: &mut Vec<Case>) {
    for count in [29, 30, 31, 32, 33, 63, 64] {
        let all = bus_of(0..count);
        let mut draft = draft_of(&all);
        let zero = draft.add(bit(0));
        (0..count as usize).fold(zero, |below, place| draft.gate(6, &[below, place]));
        let absorbed = draft.packed();
        let zero = list_of(&[bit(0)]);
        cases.push(compared(&all, &all));
        cases.push(compared(&all, &bus_of((0..count - 1).chain([0]))));
        cases.push(compared(&all, &bus_of([1].into_iter().chain(1..count))));
        cases.push(compared(&all, &zero));
        cases.push(compared(&zero, &absorbed));
        if count > 30 {
            cases.push(compared(&absorbed, &zero));
        }
    }
    tried_to_the_end(cases);
}

/// 12 and 14 variables, decided at the last assignment or at none.
fn tried_to_the_end(cases: &mut Vec<Case>) {
    for count in [12, 14] {
        let mut draft = Draft { nodes: (0..count).map(|place| v(3 * place + 1)).collect() };
        (1..count as usize).fold(0, |below, place| draft.gate(6, &[below, place]));
        let all = draft.packed();
        let root = draft.nodes.len() - 1;
        let not = draft.gate(8, &[root]);
        draft.gate(8, &[not]);
        cases.push(compared(&all, &list_of(&[bit(0)])));
        cases.push(compared(&all, &draft.packed()));
    }
    let mut draft = Draft { nodes: (0..14).map(|place| v(2 * place)).collect() };
    (1..14).fold(0, |below, place| draft.gate(6, &[below, place]));
    for marks in [1, 1 << 26, 0x0555_5555, 0x2aaa_aaaa] {
        cases.push(separated(&draft.packed(), 30, marks));
    }
}

/// Variables at n - 1 and at n, reached and not.
fn bounds(cases: &mut Vec<Case>) {
    for n in [1, 2, 29, 30, 31] {
        for number in [n - 1, n] {
            for list in [list_of(&[v(number)]), list_of(&[v(number), bit(1)]), over(6, &[v(0), v(number)])] {
                for marks in [0, 1, 1 << (n - 1), 1 << n, 1 << 31] {
                    cases.push(separated(&list, n, marks));
                }
            }
        }
    }
}

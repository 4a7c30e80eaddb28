//! Lists as long as they may be, and one longer; deep sharing; canonical lists at the limits.
use super::examples::list_of;
use super::*;

pub fn add(cases: &mut Vec<Case>) {
    for list in sizes() {
        in_every_call(&list, cases);
    }
    for depth in [24, 64, 1000, 4095] {
        for kind in [4, 6, 7] {
            in_every_call(&doubled(kind, depth, 0), cases);
        }
        cases.push(compared(&doubled(6, depth, 0), &doubled(6, depth, 1)));
        in_every_call(&over_last_two(depth), cases);
    }
    for depth in [1, 2, 100, 1000, 4093, 4094, 4095] {
        in_every_call(&chain(8, depth), cases);
        in_every_call(&chain(16, depth), cases);
    }
    canonical_limits(cases);
    large_outputs(cases);
}

/// Node words around 3 x 4,096 and entries around 16,384.
fn sizes() -> Vec<List> {
    let words = |count: usize, entries: usize| {
        let nodes = [3, 0, 0].repeat(4099);
        List { nodes: nodes[..count].to_vec(), pool: vec![7; entries] }
    };
    let most = 3 * 4096;
    let node_words = [0, 1, 2, 3, 4, 5, most - 1, most, most + 1, most + 2, most + 3, most + 4, most + 5, most + 6];
    let small = [words(3, 16383), words(3, 16384), words(3, 16385), words(0, 16384), words(0, 16385), words(4, 16385)];
    let large = [words(most, 16384), words(most, 16385), words(most + 3, 16384), words(most + 1, 16385)];
    node_words.into_iter().map(|count| words(count, 0)).chain(small).chain(large).collect()
}

/// A leaf, and then gates each of the one below twice: two to the depth many paths.
fn doubled(kind: u32, depth: usize, leaf: u32) -> List {
    let mut draft = Draft { nodes: vec![v(leaf)] };
    for below in 0..depth {
        draft.gate(kind, &[below, below]);
    }
    draft.packed()
}

/// Gates each over the last two.
fn over_last_two(depth: usize) -> List {
    let mut draft = Draft { nodes: vec![v(0), v(1)] };
    for below in 0..depth - 1 {
        draft.gate(4 + 2 * (below as u32 % 2), &[below, below + 1]);
    }
    draft.packed()
}

/// v0 under so many Nots, or Cycles.
fn chain(kind: u32, depth: usize) -> List {
    let mut draft = Draft { nodes: vec![v(0)] };
    for below in 0..depth {
        draft.gate(kind, &[below]);
    }
    draft.packed()
}

/// Canonical lists of 4,095 to 4,097 nodes, and of 16,383 to 16,385 entries, into outputs that would hold more.
fn canonical_limits(cases: &mut Vec<Case>) {
    let lists = (4092..=4095).map(|depth| chain(8, depth)).chain((46..=50).map(long_pool));
    for list in lists {
        let roomy = Case { out: 3 * 4100, out_pool: 16400, ..canonicalized(&list) };
        cases.push(roomy.clone());
        cases.push(Case { out: 3 * 4096, out_pool: 16384, ..roomy.clone() });
        cases.push(Case { out: 3 * 4096 - 1, ..roomy.clone() });
        cases.push(Case { out_pool: 16383, ..roomy });
        cases.push(canonicalized(&list));
    }
}

/// Registers over Buses whose parts overlap in the pool, so that the canonical list's pool is longer: 250 Buses of 64, 84
/// registers and a Bus of `last`: 16,000 + 336 + last.
fn long_pool(last: usize) -> List {
    let mut list = List { nodes: (0..256).flat_map(|number| [3, number, 0]).collect(), pool: (0..256).collect() };
    list.pool.extend(0..64);
    for first in 0..250 {
        list.nodes.extend([10, first, 64]);
    }
    list.nodes.extend([10, 250, last as u32]);
    let mut registered = vec![256, 257, 258, 259];
    for register in 0..84u32 {
        let first = list.pool.len() as u32;
        list.pool.extend(&registered);
        list.nodes.extend([11, first, 4]);
        let bus = |step: u32| (259 + 3 * register + step).min(506);
        registered = vec![507 + register, bus(1), bus(2), bus(3)];
    }
    list
}

/// The greatest outputs that any answer asks, and a case that fills a list's every place.
fn large_outputs(cases: &mut Vec<Case>) {
    let list = list_of(&[v(0)]);
    cases.push(Case { out: 3 * 4096, out_pool: 16384, work: 100_000, ..canonicalized(&list) });
    cases.push(Case { out: 8192, work: 100_000, ..evaluated(&list, &[1]) });
    let all = doubled(6, 4095, 0);
    with_all_lengths(&verified(&all), cases);
    with_all_lengths(&evaluated(&all, &[1]), cases);
    with_all_lengths(&canonicalized(&chain(8, 4094)), cases);
    let case = compared(&all, &all);
    cases.push(Case { work: case.work - 1, ..case.clone() });
    cases.push(Case { work: case.work + 1, ..case });
}

//! Canonical lists written out by hand: document 01's examples, the gates and outputs that are refused, and what is left in
//! the outputs.
use panel::{canonicalize, compare, work_for, Check, Error, List, Number, Refusal};

const AND: List = List { nodes: &[3, 0, 0, 3, 1, 0, 6, 0, 2], pool: &[0, 1] };
const AND_LISTED: List = List { nodes: &[1, 8, 0, 3, 0, 0, 3, 1, 0, 9, 0, 3], pool: &[0, 1, 2] };
const UNTOUCHED: u32 = 7;

fn refused<T>(number: Number, node: u64) -> Result<T, Error> {
    Err(Error::Refused(Refusal { number, node }))
}

fn work(lists: &[List]) -> Vec<u64> {
    vec![7; work_for(lists)]
}

/// Tries outputs of these lengths; what is behind the answer, and all of it where there is none, must be as it was.
fn canonical(list: List, words: usize, entries: usize) -> Result<(Vec<u32>, Vec<u32>), Error> {
    let (mut nodes, mut pool) = (vec![UNTOUCHED; words], vec![UNTOUCHED; entries]);
    let mut space = work(&[list]);
    let got =
        canonicalize(list, &mut space, &mut nodes, &mut pool).map(|list| (list.nodes.to_vec(), list.pool.to_vec()));
    let (behind_nodes, behind_pool) = got.as_ref().map_or((0, 0), |(nodes, pool)| (nodes.len(), pool.len()));
    assert!(nodes[behind_nodes..].iter().chain(&pool[behind_pool..]).all(|word| *word == UNTOUCHED));
    assert!(space.iter().all(|word| *word == 0));
    got
}

/// With outputs that are just enough, and longer.
fn is_listed(list: List, expected: List) {
    for more in [0, 1, 20] {
        let got = canonical(list, expected.nodes.len() + more, expected.pool.len() + more);
        assert_eq!(got, Ok((expected.nodes.to_vec(), expected.pool.to_vec())), "{list:?}");
    }
}

// ---- answers

#[test]
fn examples_are_listed() {
    is_listed(AND, AND_LISTED);
    // what is canonical stays
    is_listed(AND_LISTED, AND_LISTED);
    // Mux(true, v0, v1)
    let chosen = List { nodes: &[0, 1, 0, 3, 0, 0, 3, 1, 0, 5, 0, 3], pool: &[0, 1, 2] };
    is_listed(chosen, List { nodes: &[3, 0, 0], pool: &[] });
    // And(Not(v1), v0)
    let turned = List { nodes: &[3, 0, 0, 3, 1, 0, 8, 0, 1, 6, 1, 2], pool: &[1, 2, 0] };
    let order = List { nodes: &[1, 8, 0, 1, 1, 0, 3, 1, 0, 9, 0, 2, 3, 0, 0, 9, 2, 3], pool: &[1, 2, 0, 3, 4] };
    is_listed(turned, order);
    // And(v0, v0): equal operands are not merged
    let twice = List { nodes: &[3, 0, 0, 3, 0, 0, 6, 0, 2], pool: &[0, 1] };
    is_listed(twice, List { nodes: &[1, 8, 0, 3, 0, 0, 9, 0, 3], pool: &[0, 1, 1] });
}

#[test]
fn a_canonical_list_is_equivalent_to_its_list() {
    let (mut nodes, mut pool) = ([0; 12], [0; 3]);
    let canonical = canonicalize(AND, &mut work(&[AND]), &mut nodes, &mut pool).unwrap();
    assert_eq!(canonical, AND_LISTED);
    assert_eq!(compare(AND, canonical, &mut work(&[AND, canonical])).map(|found| found.verdict), Ok(Check::Equiv));
}

// ---- refusals

#[test]
fn wide_gates_are_refused_unless_unreached() {
    // Mux(true, Bus(v0), Bus(v0)); and behind it a constant, or a register over two Nots of a Bus, of which one is reached
    let chosen = List { nodes: &[0, 1, 0, 3, 0, 0, 10, 0, 1, 5, 1, 3], pool: &[1, 0, 2, 2] };
    let unreached = List { nodes: &[0, 1, 0, 3, 0, 0, 10, 0, 1, 5, 1, 3, 0, 1, 0], pool: &[1, 0, 2, 2] };
    let second = List { nodes: &[3, 0, 0, 10, 0, 0, 8, 0, 1, 8, 0, 1, 11, 1, 4], pool: &[1, 3, 0, 0, 0] };
    for room in [0, 30] {
        assert_eq!(canonical(chosen, room, room), refused(Number::WideGate, 3));
        assert_eq!(canonical(second, room, room), refused(Number::WideGate, 3));
    }
    is_listed(unreached, List { nodes: &[0, 1, 0], pool: &[] });
}

#[test]
fn short_outputs_are_refused_and_left_alone() {
    for (words, entries) in [(11, 3), (12, 2), (11, 2), (0, 3), (12, 0), (0, 0), (11, 100), (100, 2)] {
        assert_eq!(canonical(AND, words, entries), refused(Number::ShortOutput, 0), "{words} {entries}");
    }
}

/// v0 under so many Nots.
fn nots(count: u32) -> (Vec<u32>, Vec<u32>) {
    let gates = (0..count).flat_map(|gate| [8, gate, 1]);
    ([3, 0, 0].into_iter().chain(gates).collect(), (0..count).collect())
}

#[test]
fn a_canonical_list_has_limits_of_its_own() {
    let (nodes, pool) = nots(4094);
    let luts = (0..4094).flat_map(|lut| [9, 2 * lut, 2]);
    let listed: Vec<u32> = [1, 1, 0, 3, 0, 0].into_iter().chain(luts).collect();
    let entries: Vec<u32> = (0..4094).flat_map(|lut| [0, lut + 1]).collect();
    assert_eq!(listed.len(), 3 * 4096);
    is_listed(List { nodes: &nodes, pool: &pool }, List { nodes: &listed, pool: &entries });
    let (nodes, pool) = nots(4095);
    assert_eq!(canonical(List { nodes: &nodes, pool: &pool }, 20000, 20000), refused(Number::ShortOutput, 0));
}

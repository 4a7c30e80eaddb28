//! Second lists for a comparison, made from the first: alike, nearly alike, or not at all.
use super::draft::{draft_of, Draft, Node};
use super::rng::Rng;
use super::sound::sound_draft;
use crate::model::calls::canonical_of;

pub fn second_draft(rng: &mut Rng, first: &Draft, size: usize, variables: &[u32]) -> Draft {
    match rng.below(16) {
        0 => first.clone(),
        1 => first.reordered(rng),
        2..=5 => rewritten(rng, first),
        6..=8 => with_leaf_changed(rng, first),
        9 => canonical_of(&first.packed()).map_or_else(|| first.clone(), |list| draft_of(&list)),
        10 => wrapped(rng, first),
        11..=13 => {
            let alike = rewritten(rng, first);
            with_leaf_changed(rng, &alike)
        }
        _ => sound_draft(rng, size, variables),
    }
}

// ---- the same function in another form

/// Some gates become their Luts or another gate of the same values, and some operands change sides.
fn rewritten(rng: &mut Rng, first: &Draft) -> Draft {
    let mut draft = Draft::default();
    let mut places = Vec::new();
    for node in &first.nodes {
        let mut node = node.clone();
        for child in &mut node.children {
            *child = places[*child];
        }
        let place = if rng.percent(40) { rewrite(rng, &mut draft, node) } else { draft.add(node) };
        places.push(place);
    }
    root_last(&mut draft, places.last().copied());
    draft
}

fn rewrite(rng: &mut Rng, draft: &mut Draft, node: Node) -> usize {
    let operands = node.children.clone();
    match (node.kind, rng.below(3)) {
        (4 | 6 | 7, 0) => draft.gate(node.kind, &[operands[1], operands[0]]),
        (4, 1) => draft.lut(1, &operands),
        (5, 1) => draft.lut(202, &operands),
        (5, 2) => {
            let not = draft.gate(8, &operands[..1]);
            draft.gate(5, &[not, operands[2], operands[1]])
        }
        (6, 1) => draft.lut(8, &operands),
        (6, 2) => {
            let nots = [draft.gate(8, &operands[..1]), draft.gate(8, &operands[1..])];
            draft.gate(4, &nots)
        }
        (7, 1) => draft.lut(6, &operands),
        (8, 1) => draft.lut(1, &operands),
        (8, 2) => draft.gate(4, &[operands[0], operands[0]]),
        _ => draft.add(node),
    }
}

/// The root must be the last node: a root that is not gets two Nots over it, of whatever shape it is.
fn root_last(draft: &mut Draft, root: Option<usize>) {
    let Some(root) = root.filter(|&root| root + 1 != draft.nodes.len()) else {
        return;
    };
    let not = draft.gate(8, &[root]);
    draft.gate(8, &[not]);
}

/// A Cycle, two Nots or a bus of one over the root: the same values, another tree.
fn wrapped(rng: &mut Rng, first: &Draft) -> Draft {
    let mut draft = first.clone();
    let Some(root) = draft.nodes.len().checked_sub(1) else {
        return draft;
    };
    match rng.below(3) {
        0 => draft.gate(16, &[root]),
        1 => draft.gate(10, &[root]),
        _ => {
            let not = draft.gate(8, &[root]);
            draft.gate(8, &[not])
        }
    };
    draft
}

// ---- nearly the same

fn with_leaf_changed(rng: &mut Rng, first: &Draft) -> Draft {
    let mut draft = first.clone();
    let is_leaf = |place: &usize| draft.nodes[*place].kind < 4;
    let leaves: Vec<usize> = (0..draft.nodes.len()).filter(is_leaf).collect();
    if leaves.is_empty() {
        return draft;
    }
    let node = &mut draft.nodes[rng.pick(&leaves)];
    match node.kind {
        0 => node.fields[0] ^= 1,
        1 => node.fields[0] ^= 1 << rng.below(4),
        2 => *node = Node::leaf(0, rng.below(2) as u32, 0),
        _ => node.fields[0] ^= 1 << rng.below(3),
    }
    draft
}

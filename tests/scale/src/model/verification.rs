//! Document 01, "Verification": number 6.
use super::list::{Op, Refusal, Tree};
use crate::slips::{slips, Slip};
use std::collections::BTreeMap;
use std::rc::Rc;

/// A node that the root reaches, and the least number of Cycle nodes over it.
pub struct Reached {
    pub tree: Rc<Tree>,
    pub cycles: u64,
}

/// What the root reaches, itself included, by place.
pub type Reach = BTreeMap<usize, Reached>;

/// Goes by layers: first what is reached without passing a Cycle, then what one Cycle leads to, and so on. So a node is
/// first met under the least number of Cycles.
pub fn reach(root: &Rc<Tree>) -> Reach {
    let mut found = Reach::new();
    let mut layer = vec![root.clone()];
    let mut cycles = 0;
    while !layer.is_empty() {
        layer = walk_layer(layer, cycles, &mut found);
        cycles += 1;
    }
    if slips(Slip::GreatestCycles) {
        count_greatest(&mut found);
    }
    found
}

/// Adds a layer, and hands back what stands below its Cycles.
fn walk_layer(mut open: Vec<Rc<Tree>>, cycles: u64, found: &mut Reach) -> Vec<Rc<Tree>> {
    let mut next = Vec::new();
    while let Some(tree) = open.pop() {
        if found.contains_key(&tree.place) {
            continue;
        }
        let below = if tree.op == Op::Cycle { &mut next } else { &mut open };
        below.extend(tree.operands.iter().cloned());
        found.insert(tree.place, Reached { tree, cycles });
    }
    next
}

/// The slip: the greatest number over all paths.
fn count_greatest(found: &mut Reach) {
    let places: Vec<usize> = found.keys().rev().copied().collect();
    for place in places {
        let (tree, cycles) = (found[&place].tree.clone(), found[&place].cycles);
        let over = cycles + u64::from(tree.op == Op::Cycle);
        for child in &tree.operands {
            let below = found.get_mut(&child.place).expect("a child of what is reached is reached");
            below.cycles = below.cycles.max(over);
        }
    }
}

/// Number 6, at the lowest faulty node that the root reaches.
pub fn verify(trees: &[Rc<Tree>], reach: &Reach) -> Result<(), Refusal> {
    let faulty = trees.iter().find(|tree| match reach.get(&tree.place) {
        Some(reached) => is_faulty(tree, reached.cycles),
        None => slips(Slip::UnreachedVerified) && is_faulty(tree, 0),
    });
    faulty.map_or(Ok(()), |tree| Err(Refusal { number: 6, node: tree.place as u64 }))
}

fn is_faulty(tree: &Tree, cycles: u64) -> bool {
    match tree.op {
        Op::Lut => lut_is_faulty(&tree.operands),
        Op::And | Op::Xor | Op::Nor => tree.operands.iter().any(|child| child.is_program()),
        Op::Bus => tree.operands.iter().any(|child| child.is_program() || child.op == Op::Bus),
        Op::Arg => !matches!(tree.operands[0].op, Op::Program(index) if index < cycles),
        _ => false,
    }
}

fn lut_is_faulty(children: &[Rc<Tree>]) -> bool {
    let Some(Op::Program(program)) = children.first().map(|child| child.op) else {
        return true;
    };
    let k = children.len() - 1;
    let rows_fit = k >= 6 || program < 1 << (1 << k);
    k > 6 || !(rows_fit || slips(Slip::AnyProgram))
}

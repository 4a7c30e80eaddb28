//! Document 01, "Evaluable": numbers 7 and 8, and number 14 of the canonicaliser.
use super::list::{refuse, Op, Refusal, Tree};
use super::verification::{reach, verify, Reach};
use crate::slips::{slips, Slip};
use std::collections::BTreeMap;
use std::rc::Rc;

#[derive(Clone, Copy, Debug, PartialEq, Eq)]
pub enum Shape {
    Bit,
    Bus(usize),
}

/// A list past number 8.
pub struct Sound {
    pub trees: Vec<Rc<Tree>>,
    pub root: Rc<Tree>,
    pub reach: Reach,
    pub shapes: BTreeMap<usize, Shape>,
}

/// Numbers 6, 7 and 8 of a list that was read.
pub fn check(trees: Vec<Rc<Tree>>) -> Result<Sound, Refusal> {
    let Some(root) = trees.last().cloned() else {
        return refuse(7);
    };
    let reach = reach(&root);
    verify(&trees, &reach)?;
    let shapes = shapes(&reach, &root)?;
    Ok(Sound { trees, root, reach, shapes })
}

/// Shapes from the lowest place on. A Program has none, so whoever takes it for an operand is at fault.
fn shapes(reach: &Reach, root: &Rc<Tree>) -> Result<BTreeMap<usize, Shape>, Refusal> {
    let mut shapes = BTreeMap::new();
    for (&place, reached) in reach {
        if reached.tree.is_program() && place != root.place {
            continue;
        }
        let shape = shape_of(&reached.tree, &shapes).ok_or(Refusal { number: 8, node: place as u64 })?;
        shapes.insert(place, shape);
    }
    Ok(shapes)
}

fn shape_of(tree: &Tree, shapes: &BTreeMap<usize, Shape>) -> Option<Shape> {
    let shape = |child: &Rc<Tree>| shapes.get(&child.place).copied();
    let children = &tree.operands;
    match tree.op {
        Op::Const(_) | Op::Dc | Op::Var(_) | Op::Arg => Some(Shape::Bit),
        Op::Program(_) => None,
        Op::Nor | Op::And | Op::Xor => one_shape(shape(&children[0]), shape(&children[1])),
        Op::Mux => one_shape(shape(&children[1]), shape(&children[2])).filter(|_| is_bit(shape(&children[0]))),
        Op::Not | Op::Cycle => shape(&children[0]),
        Op::Lut => children[1..].iter().all(|child| is_bit(shape(child))).then_some(Shape::Bit),
        Op::Bus => children.iter().all(|child| is_bit(shape(child))).then_some(Shape::Bus(children.len())),
        Op::Register(_) => children.iter().all(|child| shape(child).is_some()).then_some(Shape::Bit),
    }
}

fn one_shape(first: Option<Shape>, second: Option<Shape>) -> Option<Shape> {
    first.filter(|_| first == second)
}

/// A bus of one isn't a bit.
fn is_bit(shape: Option<Shape>) -> bool {
    shape == Some(Shape::Bit) || (slips(Slip::OneBusIsBit) && shape == Some(Shape::Bus(1)))
}

/// Number 14, at the lowest gate that the root reaches and that isn't a bit.
pub fn check_gates(sound: &Sound) -> Result<(), Refusal> {
    let is_gate = |op| matches!(op, Op::Nor | Op::Mux | Op::And | Op::Xor | Op::Not);
    let wide = sound.reach.iter().find(|(place, at)| is_gate(at.tree.op) && sound.shapes[place] != Shape::Bit);
    wide.map_or(Ok(()), |(&place, _)| Err(Refusal { number: 14, node: place as u64 }))
}

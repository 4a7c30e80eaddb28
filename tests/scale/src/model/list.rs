//! Document 01, "The node list" and numbers 1 to 5: two slices of words read into a tree.
use crate::slips::{slips, Slip};
use std::rc::Rc;

pub const MOST_NODES: usize = 4096;
pub const MOST_POOL: usize = 16384;

#[derive(Clone, Debug, Default, PartialEq, Eq)]
pub struct List {
    pub nodes: Vec<u32>,
    pub pool: Vec<u32>,
}

/// The number of document 01's table, and the lowest faulty node where it names one.
#[derive(Clone, Copy, Debug, PartialEq, Eq)]
pub struct Refusal {
    pub number: u64,
    pub node: u64,
}

/// A refusal that names no node.
pub fn refuse<T>(number: u64) -> Result<T, Refusal> {
    Err(Refusal { number, node: 0 })
}

#[derive(Clone, Copy, Debug, PartialEq, Eq, Hash)]
pub enum Op {
    Const(bool),
    Program(u64),
    Dc,
    Var(u32),
    Nor,
    Mux,
    And,
    Xor,
    Not,
    Lut,
    Bus,
    Register(u32),
    Arg,
    Cycle,
}

/// A node with all that is below it. `place` is its number in the list that it was read from.
#[derive(Debug)]
pub struct Tree {
    pub place: usize,
    pub op: Op,
    pub operands: Vec<Rc<Tree>>,
}

impl Tree {
    pub fn is_program(&self) -> bool {
        matches!(self.op, Op::Program(_))
    }
}

impl List {
    pub fn node_count(&self) -> usize {
        self.nodes.len() / 3
    }

    /// The work space that number 10 asks for this list.
    pub fn work_words(&self) -> usize {
        16 * self.node_count() + 2 * self.pool.len()
    }
}

// ---- numbers 1 and 2

pub fn check_sizes(list: &List) -> Result<(), Refusal> {
    if list.nodes.len() % 3 != 0 {
        return refuse(1);
    }
    let most = if slips(Slip::OneNodeLess) { MOST_NODES - 1 } else { MOST_NODES };
    if list.node_count() > most || list.pool.len() > MOST_POOL {
        return refuse(2);
    }
    Ok(())
}

// ---- numbers 3 to 5

/// Every node's tree, the root's last; or the lowest faulty node, whose lowest number is met first.
pub fn read(list: &List) -> Result<Vec<Rc<Tree>>, Refusal> {
    let mut trees: Vec<Rc<Tree>> = Vec::new();
    for words in list.nodes.chunks_exact(3) {
        let place = trees.len();
        let (op, operands) =
            read_node(words, &list.pool, &trees).map_err(|number| Refusal { number, node: place as u64 })?;
        trees.push(Rc::new(Tree { place, op, operands }));
    }
    Ok(trees)
}

fn read_node(words: &[u32], pool: &[u32], below: &[Rc<Tree>]) -> Result<(Op, Vec<Rc<Tree>>), u64> {
    let (kind, first, count) = (words[0], words[1], words[2]);
    let op = read_op(kind, first, count)?;
    let operands = if kind < 4 { Vec::new() } else { read_operands(op, first, count, pool, below)? };
    Ok((op, operands))
}

fn read_op(kind: u32, first: u32, count: u32) -> Result<Op, u64> {
    match (kind, first, count) {
        (0, 0, 0) => Ok(Op::Const(false)),
        (0, 1, 0) => Ok(Op::Const(true)),
        (1, low, high) => Ok(Op::Program(u64::from(high) << 32 | u64::from(low))),
        (2, 0, 0) => Ok(Op::Dc),
        (3, variable @ 0..=255, 0) => Ok(Op::Var(variable)),
        (0..=3, _, _) => Err(4),
        (4, _, _) => Ok(Op::Nor),
        (5, _, _) => Ok(Op::Mux),
        (6, _, _) => Ok(Op::And),
        (7, _, _) => Ok(Op::Xor),
        (8, _, _) => Ok(Op::Not),
        (9, _, _) => Ok(Op::Lut),
        (10, _, _) => Ok(Op::Bus),
        (11..=14, _, _) => Ok(Op::Register(kind)),
        (15, _, _) => Ok(Op::Arg),
        (16, _, _) => Ok(Op::Cycle),
        _ => Err(3),
    }
}

fn read_operands(op: Op, first: u32, count: u32, pool: &[u32], below: &[Rc<Tree>]) -> Result<Vec<Rc<Tree>>, u64> {
    if !may_have(op, count) || end(first, count) > pool.len() as u64 {
        return Err(4);
    }
    let part: Vec<&u32> = pool.iter().skip(first as usize).take(count as usize).collect();
    if part.len() < count as usize {
        // Only a slip lets a part past the pool's end.
        return Err(5);
    }
    part.into_iter().map(|&child| below.get(child as usize).cloned().ok_or(5)).collect()
}

fn may_have(op: Op, count: u32) -> bool {
    match op {
        Op::Nor | Op::And | Op::Xor => count == 2,
        Op::Mux => count == 3,
        Op::Not | Op::Arg | Op::Cycle => count == 1,
        Op::Register(_) => count == 4,
        Op::Bus => count <= 64,
        _ => true,
    }
}

/// first + count is a sum of numbers.
fn end(first: u32, count: u32) -> u64 {
    if slips(Slip::SumWraps) {
        return u64::from(first.wrapping_add(count));
    }
    u64::from(first) + u64::from(count)
}

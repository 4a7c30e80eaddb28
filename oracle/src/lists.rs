//! Node lists (document 01, The node list) as the original's lists, and back.
//!
//! A list keeps the layout of document 01, or the case is malformed; but its limits are ours and not the original's, so
//! more than 4,096 nodes and a Bus of more than 64 are taken.

use egg::{Id, Language, RecExpr, Symbol};
use original::lut::LutLang;
use std::sync::LazyLock;

const WORDS_PER_NODE: usize = 3;
const VARIABLES: usize = 256;
const HALF: u32 = 32;

/// The case is no such case.
#[derive(Debug)]
pub struct Malformed;

/// Three digits, so that the sorted order of the names is the order of the numbers.
static NAMES: LazyLock<Vec<&'static str>> =
    LazyLock::new(|| (0..VARIABLES).map(|number| &*format!("v{number:03}").leak()).collect());

pub fn name_of(variable: usize) -> &'static str {
    NAMES[variable]
}

pub fn number_of(name: Symbol) -> usize {
    name.as_str()[1..].parse().expect("a name of ours")
}

/// The words of a case, taken from the front.
pub struct Words<'a> {
    left: &'a [u64],
}

impl<'a> Words<'a> {
    pub fn new(words: &'a [u64]) -> Self {
        Self { left: words }
    }

    pub fn take(&mut self, count: u64) -> Result<&'a [u64], Malformed> {
        let count = usize::try_from(count).map_err(|_| Malformed)?;
        let (taken, left) = self.left.split_at_checked(count).ok_or(Malformed)?;
        self.left = left;
        Ok(taken)
    }

    pub fn next(&mut self) -> Result<u64, Malformed> {
        Ok(self.take(1)?[0])
    }

    /// So many node words and so many pool entries as a list.
    pub fn list(&mut self, words: u64, entries: u64) -> Result<Vec<LutLang>, Malformed> {
        let nodes = self.take(words)?;
        let pool = self.take(entries)?;
        read(nodes, pool)
    }

    pub fn end(self) -> Result<(), Malformed> {
        if self.left.is_empty() { Ok(()) } else { Err(Malformed) }
    }
}

fn read(nodes: &[u64], pool: &[u64]) -> Result<Vec<LutLang>, Malformed> {
    if !nodes.len().is_multiple_of(WORDS_PER_NODE) || nodes.iter().any(|word| *word > u64::from(u32::MAX)) {
        return Err(Malformed);
    }
    let each = nodes.chunks(WORDS_PER_NODE).enumerate();
    each.map(|(number, node)| read_node(number as u64, node[0], node[1], node[2], pool)).collect()
}

fn read_node(number: u64, kind: u64, first: u64, count: u64, pool: &[u64]) -> Result<LutLang, Malformed> {
    match (kind, first, count) {
        (0, 0 | 1, 0) => Ok(LutLang::Const(first == 1)),
        (1, _, _) => Ok(LutLang::Program(first | count << HALF)),
        (2, 0, 0) => Ok(LutLang::DC),
        (3, 0..=255, 0) => Ok(LutLang::Var(Symbol::new(name_of(first as usize)))),
        (4..=16, _, _) => over(kind, children(number, first, count, pool)?),
        _ => Err(Malformed),
    }
}

fn children(number: u64, first: u64, count: u64, pool: &[u64]) -> Result<Vec<Id>, Malformed> {
    let part = pool.get(first as usize..(first + count) as usize).ok_or(Malformed)?;
    if part.iter().any(|child| *child >= number) {
        return Err(Malformed);
    }
    Ok(part.iter().map(|child| Id::from(*child as usize)).collect())
}

fn over(kind: u64, children: Vec<Id>) -> Result<LutLang, Malformed> {
    Ok(match kind {
        4 => LutLang::Nor(fixed(children)?),
        5 => LutLang::Mux(fixed(children)?),
        6 => LutLang::And(fixed(children)?),
        7 => LutLang::Xor(fixed(children)?),
        8 => LutLang::Not(fixed(children)?),
        9 => LutLang::Lut(children.into()),
        10 => LutLang::Bus(children.into()),
        11 => LutLang::Fdre(fixed(children)?),
        12 => LutLang::Fdse(fixed(children)?),
        13 => LutLang::Fdpe(fixed(children)?),
        14 => LutLang::Fdce(fixed(children)?),
        15 => LutLang::Arg(fixed(children)?),
        16 => LutLang::Cycle(fixed(children)?),
        _ => return Err(Malformed),
    })
}

/// As many children as the kind has.
fn fixed<const N: usize>(children: Vec<Id>) -> Result<[Id; N], Malformed> {
    children.try_into().map_err(|_| Malformed)
}

// ---- back to words

fn kind_of(node: &LutLang) -> u64 {
    match node {
        LutLang::Const(_) => 0,
        LutLang::Program(_) => 1,
        LutLang::DC => 2,
        LutLang::Var(_) => 3,
        LutLang::Nor(_) => 4,
        LutLang::Mux(_) => 5,
        LutLang::And(_) => 6,
        LutLang::Xor(_) => 7,
        LutLang::Not(_) => 8,
        LutLang::Lut(_) => 9,
        LutLang::Bus(_) => 10,
        LutLang::Fdre(_) => 11,
        LutLang::Fdse(_) => 12,
        LutLang::Fdpe(_) => 13,
        LutLang::Fdce(_) => 14,
        LutLang::Arg(_) => 15,
        LutLang::Cycle(_) => 16,
    }
}

/// The two words behind the kind; a node's own part of the pool begins where the pool ends so far.
fn fields_of(node: &LutLang, pool: &[u64]) -> [u64; 2] {
    match node {
        LutLang::Const(bit) => [u64::from(*bit), 0],
        LutLang::Program(value) => [value & u64::from(u32::MAX), value >> HALF],
        LutLang::DC => [0, 0],
        LutLang::Var(name) => [number_of(*name) as u64, 0],
        _ => [pool.len() as u64, node.children().len() as u64],
    }
}

/// Node words and pool of a list, in its own order.
pub fn words_of(expr: &RecExpr<LutLang>) -> (Vec<u64>, Vec<u64>) {
    let (mut nodes, mut pool) = (Vec::new(), Vec::new());
    for node in expr.as_ref() {
        nodes.push(kind_of(node));
        nodes.extend(fields_of(node, &pool));
        pool.extend(node.children().iter().map(|child| usize::from(*child) as u64));
    }
    (nodes, pool)
}

/// For each node, whether the root reaches it.
pub fn reached(nodes: &[LutLang]) -> Vec<bool> {
    let mut reached = vec![false; nodes.len()];
    if let Some(root) = reached.last_mut() {
        *root = true;
    }
    for number in (0..nodes.len()).rev().filter(|number| nodes[*number].children().iter().len() > 0) {
        if reached[number] {
            nodes[number].children().iter().for_each(|child| reached[usize::from(*child)] = true);
        }
    }
    reached
}

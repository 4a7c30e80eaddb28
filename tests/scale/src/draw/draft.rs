//! A list before it is laid out: nodes with their children, no pool yet. It is built, changed and listed otherwise here,
//! and then written as words in one of several layouts.
use super::rng::Rng;
use crate::model::list::List;

#[derive(Clone, Debug, PartialEq, Eq)]
pub struct Node {
    pub kind: u32,
    /// The two fields of a kind without children.
    pub fields: [u32; 2],
    pub children: Vec<usize>,
}

impl Node {
    pub fn leaf(kind: u32, first: u32, count: u32) -> Node {
        Node { kind, fields: [first, count], children: Vec::new() }
    }

    pub fn program(program: u64) -> Node {
        Node::leaf(1, program as u32, (program >> 32) as u32)
    }

    pub fn over(kind: u32, children: Vec<usize>) -> Node {
        Node { kind, fields: [0, 0], children }
    }
}

#[derive(Clone, Debug, Default)]
pub struct Draft {
    pub nodes: Vec<Node>,
}

/// Where the children's parts stand in the pool.
#[derive(Clone, Copy, PartialEq, Eq)]
pub enum Layout {
    /// One behind the other, in node order.
    Packed,
    /// Words that no node uses stand between them.
    Gaps,
    /// A part that stands in the pool already, or whose beginning stands at its end, is used again.
    Shared,
    /// The last node's part first.
    Backwards,
}

pub const LAYOUTS: [Layout; 4] = [Layout::Packed, Layout::Gaps, Layout::Shared, Layout::Backwards];

impl Draft {
    pub fn add(&mut self, node: Node) -> usize {
        self.nodes.push(node);
        self.nodes.len() - 1
    }

    pub fn gate(&mut self, kind: u32, children: &[usize]) -> usize {
        self.add(Node::over(kind, children.to_vec()))
    }

    /// A Lut with a Program of its own.
    pub fn lut(&mut self, program: u64, operands: &[usize]) -> usize {
        let first = self.add(Node::program(program));
        self.add(Node::over(9, [&[first], operands].concat()))
    }

    pub fn lay_out(&self, layout: Layout, rng: &mut Rng) -> List {
        let mut pool = Vec::new();
        let mut firsts = vec![0; self.nodes.len()];
        let mut order: Vec<usize> = (0..self.nodes.len()).collect();
        if layout == Layout::Backwards {
            order.reverse();
        }
        for place in order {
            let part: Vec<u32> = self.nodes[place].children.iter().map(|&child| child as u32).collect();
            firsts[place] = lay_part(&mut pool, &part, layout, rng);
        }
        let words = |(node, &first): (&Node, &usize)| match node.kind {
            0..=3 => [node.kind, node.fields[0], node.fields[1]],
            kind => [kind, first as u32, node.children.len() as u32],
        };
        List { nodes: self.nodes.iter().zip(&firsts).flat_map(words).collect(), pool }
    }

    pub fn packed(&self) -> List {
        self.lay_out(Layout::Packed, &mut Rng::new(0, 0))
    }

    /// The same nodes in another order, children still below their parents and the root last; some of them twice, and
    /// their parents over either.
    pub fn reordered(&self, rng: &mut Rng) -> Draft {
        let mut draft = Draft::default();
        let mut copies: Vec<Vec<usize>> = vec![Vec::new(); self.nodes.len()];
        let mut left: Vec<usize> = (0..self.nodes.len().saturating_sub(1)).collect();
        while !left.is_empty() {
            let is_ready = |place: &&usize| self.nodes[**place].children.iter().all(|&child| !copies[child].is_empty());
            let ready: Vec<usize> = left.iter().filter(is_ready).copied().collect();
            let place = rng.pick(&ready);
            self.copy_node(place, &mut draft, &mut copies, rng);
            if !rng.percent(8) {
                left.retain(|&other| other != place);
            }
        }
        if let Some(root) = self.nodes.len().checked_sub(1) {
            self.copy_node(root, &mut draft, &mut copies, rng);
        }
        draft
    }

    fn copy_node(&self, place: usize, draft: &mut Draft, copies: &mut [Vec<usize>], rng: &mut Rng) {
        let mut node = self.nodes[place].clone();
        for child in &mut node.children {
            *child = rng.pick(&copies[*child]);
        }
        copies[place].push(draft.add(node));
    }
}

fn lay_part(pool: &mut Vec<u32>, part: &[u32], layout: Layout, rng: &mut Rng) -> usize {
    match layout {
        Layout::Gaps if rng.percent(40) => pool.push(rng.special()),
        Layout::Shared => return share_part(pool, part),
        _ => {}
    }
    pool.extend_from_slice(part);
    pool.len() - part.len()
}

/// The first place from which the pool holds the part, or its beginning up to the pool's end.
fn share_part(pool: &mut Vec<u32>, part: &[u32]) -> usize {
    let agrees = |&place: &usize| pool[place..].iter().zip(part).all(|(a, b)| a == b);
    let place = (0..=pool.len()).find(agrees).unwrap_or(pool.len());
    let missing = (place + part.len()).saturating_sub(pool.len());
    pool.extend_from_slice(&part[part.len() - missing..]);
    place
}

/// The nodes of a list whose words are laid out as they should be.
pub fn draft_of(list: &List) -> Draft {
    let node = |words: &[u32]| match words[0] {
        0..=3 => Node::leaf(words[0], words[1], words[2]),
        kind => {
            let part = &list.pool[words[1] as usize..(words[1] + words[2]) as usize];
            Node::over(kind, part.iter().map(|&child| child as usize).collect())
        }
    };
    Draft { nodes: list.nodes.chunks_exact(3).map(node).collect() }
}

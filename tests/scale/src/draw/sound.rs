//! Lists past number 8, of many kinds; now and then one that just fails to be.
use super::draft::{Draft, Node};
use super::rng::Rng;

#[derive(Clone, Copy, PartialEq, Eq)]
enum Shape {
    Bit,
    Bus(usize),
    Program,
}

/// What a list is mostly made of.
#[derive(Clone, Copy)]
struct Flavour {
    /// Weights of the steps: gate, Lut, bus, gate of buses, register, Cycle, a leaf more.
    steps: [usize; 7],
    /// Weights of the leaves: Const, DC, Var, Arg.
    leaves: [usize; 4],
}

const FLAVOURS: [Flavour; 7] = [
    Flavour { steps: [10, 0, 0, 0, 0, 0, 2], leaves: [1, 0, 12, 0] },
    Flavour { steps: [0, 10, 0, 0, 0, 0, 2], leaves: [2, 0, 12, 0] },
    Flavour { steps: [6, 6, 0, 0, 0, 1, 2], leaves: [2, 1, 10, 0] },
    Flavour { steps: [2, 2, 5, 9, 0, 1, 1], leaves: [3, 1, 8, 0] },
    Flavour { steps: [6, 4, 1, 2, 2, 2, 2], leaves: [3, 3, 6, 2] },
    Flavour { steps: [5, 7, 0, 0, 0, 0, 2], leaves: [8, 1, 5, 0] },
    Flavour { steps: [1, 2, 8, 1, 1, 1, 1], leaves: [2, 2, 6, 1] },
];

/// Programs that folding, cofactors and row order are tried on.
const PROGRAMS: [u64; 14] = [0, 1, 2, 3, 6, 8, 9, 14, 15, 128, 150, 202, 232, u64::MAX];

struct Builder<'a> {
    draft: Draft,
    shapes: Vec<Shape>,
    /// Which nodes have a parent already.
    used: Vec<bool>,
    variables: &'a [u32],
    flavour: Flavour,
    /// The widths that this list's buses have.
    widths: [usize; 2],
    /// One more than the greatest Arg index: as many Cycles must stand over the root.
    cycles: u64,
}

/// A list of about so many nodes over these variables, the root last.
pub fn sound_draft(rng: &mut Rng, size: usize, variables: &[u32]) -> Draft {
    let flavour = rng.pick(&FLAVOURS);
    let widths = [rng.pick(&[0, 1, 2, 3, 4, 5]), rng.pick(&[1, 2, 3, 7, 63, 64])];
    let (draft, shapes, used) = (Draft::default(), Vec::new(), Vec::new());
    let mut builder = Builder { draft, shapes, used, variables, flavour, widths, cycles: 0 };
    for _ in 0..rng.within(1, 4) {
        builder.leaf(rng);
    }
    while builder.shapes.len() < size {
        builder.step(rng);
    }
    builder.finish(rng);
    builder.draft
}

impl Builder<'_> {
    fn add(&mut self, node: Node, shape: Shape) -> usize {
        for &child in &node.children {
            self.used[child] = true;
        }
        self.shapes.push(shape);
        self.used.push(false);
        self.draft.add(node)
    }

    fn step(&mut self, rng: &mut Rng) {
        match rng.weighted(&self.flavour.steps) {
            0 => self.gate(rng, Shape::Bit),
            1 => self.lut(rng),
            2 => self.bus(rng),
            3 => {
                let width = rng.pick(&self.widths);
                self.gate(rng, Shape::Bus(width))
            }
            4 => self.register(rng),
            5 => self.cycle(rng),
            _ => self.leaf(rng),
        };
    }

    // ---- operands

    /// A node of a shape, more often one without a parent or a late one, so that much is reached; made where there is
    /// none.
    fn operand(&mut self, rng: &mut Rng, shape: Shape) -> usize {
        let fits: Vec<usize> = (0..self.shapes.len()).filter(|&place| self.shapes[place] == shape).collect();
        if fits.is_empty() || rng.percent(4) {
            return self.made(rng, shape);
        }
        let unused: Vec<usize> = fits.iter().copied().filter(|&place| !self.used[place]).collect();
        match rng.below(10) {
            0..=6 if !unused.is_empty() => rng.pick(&unused),
            0..=8 => rng.pick(&fits[fits.len().saturating_sub(4)..]),
            _ => rng.pick(&fits),
        }
    }

    fn made(&mut self, rng: &mut Rng, shape: Shape) -> usize {
        match shape {
            Shape::Bit => self.leaf(rng),
            Shape::Bus(width) => self.bus_of(rng, width),
            Shape::Program => self.program(rng, 6),
        }
    }

    fn operands(&mut self, rng: &mut Rng, shapes: &[Shape]) -> Vec<usize> {
        shapes.iter().map(|&shape| self.operand(rng, shape)).collect()
    }

    // ---- nodes

    fn leaf(&mut self, rng: &mut Rng) -> usize {
        let node = match rng.weighted(&self.flavour.leaves) {
            0 => Node::leaf(0, rng.below(2) as u32, 0),
            1 => Node::leaf(2, 0, 0),
            2 if !self.variables.is_empty() => Node::leaf(3, rng.pick(self.variables), 0),
            3 => return self.arg(rng),
            _ => Node::leaf(0, 1, 0),
        };
        self.add(node, Shape::Bit)
    }

    fn arg(&mut self, rng: &mut Rng) -> usize {
        let index = rng.pick(&[0, 0, 0, 1, 2]);
        self.cycles = self.cycles.max(index + 1);
        let program = self.add(Node::program(index), Shape::Program);
        self.add(Node::over(15, vec![program]), Shape::Bit)
    }

    fn program(&mut self, rng: &mut Rng, k: usize) -> usize {
        let program = random_program(rng, k);
        self.add(Node::program(program), Shape::Program)
    }

    fn gate(&mut self, rng: &mut Rng, shape: Shape) -> usize {
        let kind = rng.within(4, 8);
        let children = match kind {
            5 => self.operands(rng, &[Shape::Bit, shape, shape]),
            8 => self.operands(rng, &[shape]),
            _ => self.operands(rng, &[shape, shape]),
        };
        self.add(Node::over(kind as u32, children), shape)
    }

    /// Its program is its own, or one that stands there already and is in range.
    fn lut(&mut self, rng: &mut Rng) -> usize {
        let k = rng.weighted(&[1, 4, 8, 6, 3, 2, 2]);
        let mut children = self.operands(rng, &vec![Shape::Bit; k]);
        let program = self.known_program(rng, k).unwrap_or_else(|| self.program(rng, k));
        children.insert(0, program);
        self.add(Node::over(9, children), Shape::Bit)
    }

    fn known_program(&mut self, rng: &mut Rng, k: usize) -> Option<usize> {
        let fits = |node: &Node| node.kind == 1 && (k >= 6 || value(node) >> (1 << k) == 0);
        let known: Vec<usize> = (0..self.shapes.len()).filter(|&place| fits(&self.draft.nodes[place])).collect();
        (!known.is_empty() && rng.percent(30)).then(|| rng.pick(&known))
    }

    fn bus(&mut self, rng: &mut Rng) -> usize {
        let width = rng.pick(&self.widths);
        self.bus_of(rng, width)
    }

    /// Its members are bits and no Bus; what is made here are leaves, so it ends.
    fn bus_of(&mut self, rng: &mut Rng, width: usize) -> usize {
        let members = self.operands(rng, &vec![Shape::Bit; width]);
        self.add(Node::over(10, members), Shape::Bus(width))
    }

    fn any_operand(&mut self, rng: &mut Rng) -> usize {
        let width = rng.pick(&self.widths);
        let shape = if rng.percent(85) { Shape::Bit } else { Shape::Bus(width) };
        self.operand(rng, shape)
    }

    fn register(&mut self, rng: &mut Rng) -> usize {
        let children = (0..4).map(|_| self.any_operand(rng)).collect();
        self.add(Node::over(rng.within(11, 14) as u32, children), Shape::Bit)
    }

    fn cycle(&mut self, rng: &mut Rng) -> usize {
        let child = self.any_operand(rng);
        let shape = self.shapes[child];
        self.add(Node::over(16, vec![child]), shape)
    }

    /// A root over bits that have no parent yet, so that most of the list is reached; or one more node of the flavour.
    fn gather(&mut self, rng: &mut Rng) {
        let is_left = |place: &usize| self.shapes[*place] == Shape::Bit && !self.used[*place];
        let left: Vec<usize> = (0..self.shapes.len()).filter(is_left).collect();
        match rng.below(10) {
            0..=3 if !left.is_empty() => {
                let operands = left[left.len().saturating_sub(6)..].to_vec();
                let program = self.program(rng, operands.len());
                self.add(Node::over(9, [vec![program], operands].concat()), Shape::Bit);
            }
            4 | 5 => {
                let members = left[left.len().saturating_sub(64)..].to_vec();
                let shape = Shape::Bus(members.len());
                self.add(Node::over(10, members), shape);
            }
            _ => self.step(rng),
        }
    }

    /// The last node becomes the root, under as many Cycles as the Args ask; seldom one too few.
    fn finish(&mut self, rng: &mut Rng) {
        self.gather(rng);
        let missing = u64::from(self.cycles > 0 && rng.percent(8));
        for _ in missing..self.cycles {
            let root = self.shapes.len() - 1;
            let shape = self.shapes[root];
            self.add(Node::over(16, vec![root]), shape);
        }
    }
}

fn value(program: &Node) -> u64 {
    u64::from(program.fields[1]) << 32 | u64::from(program.fields[0])
}

/// A program in range for k operands: any, a known one, a row, or one that does not depend on an operand.
pub fn random_program(rng: &mut Rng, k: usize) -> u64 {
    let rows = 1u32 << k;
    let in_range = |program: u64| if rows == 64 { program } else { program & ((1 << rows) - 1) };
    match rng.below(4) {
        0 => in_range(rng.pick(&PROGRAMS)),
        1 => 1 << rng.below(rows as usize),
        2 if k > 0 => idle_program(rng, k),
        _ => in_range(rng.next()),
    }
}

/// The rows that have an operand at 1 repeat those that have it at 0.
fn idle_program(rng: &mut Rng, k: usize) -> u64 {
    let (program, bit) = (rng.next(), rng.below(k));
    (0..1u64 << k).fold(0, |idle, row| idle | (program >> (row & !(1 << bit)) & 1) << row)
}

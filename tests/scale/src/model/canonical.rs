//! Document 01, "Canonical list": every node's normal form, and the list of the root's.
use super::evaluable::Sound;
use super::list::{List, Op, Tree};
use super::tables::Table;
use crate::slips::{slips, Slip};
use std::collections::HashMap;
use std::rc::Rc;

/// A normal form: a tree that stands in no list yet.
struct Form {
    op: Op,
    operands: Vec<Rc<Form>>,
}

pub fn canonical(sound: &Sound) -> List {
    let mut forms = Forms { known: HashMap::new() };
    let root = forms.of(&sound.root);
    let mut listing = Listing::default();
    listing.number(&root);
    listing.list
}

// ---- normal forms

struct Forms {
    known: HashMap<usize, Rc<Form>>,
}

impl Forms {
    /// Children first; a shared node has one form.
    fn of(&mut self, tree: &Tree) -> Rc<Form> {
        if let Some(known) = self.known.get(&tree.place) {
            return known.clone();
        }
        let operands: Vec<Rc<Form>> = tree.operands.iter().map(|child| self.of(child)).collect();
        let form = normal(tree.op, operands);
        self.known.insert(tree.place, form.clone());
        form
    }
}

fn normal(op: Op, mut operands: Vec<Rc<Form>>) -> Rc<Form> {
    let program = match op {
        Op::Mux => 202,
        Op::And => 8,
        Op::Xor => 6,
        Op::Nor | Op::Not => 1,
        Op::Lut => program_of(&operands.remove(0)),
        _ => return Rc::new(Form { op, operands }),
    };
    fold(Table::new(program, operands.len()), operands)
}

fn program_of(form: &Form) -> u64 {
    let Op::Program(program) = form.op else {
        unreachable!("a Lut past number 6 has its program first");
    };
    program
}

fn constant(bit: bool) -> Rc<Form> {
    Rc::new(Form { op: Op::Const(bit), operands: Vec::new() })
}

fn bit_of(form: &Rc<Form>) -> Option<bool> {
    if let Op::Const(bit) = form.op {
        return Some(bit);
    }
    None
}

/// The three rules, until none applies.
fn fold(table: Table, mut operands: Vec<Rc<Form>>) -> Rc<Form> {
    match operands.len() {
        0 => constant(table.at(&[])),
        1 => fold_one(&table, operands),
        _ => match droppable(&table, &operands) {
            Some((place, at)) => {
                operands.remove(place);
                fold(table.held(place, at), operands)
            }
            None => lut(&table, operands),
        },
    }
}

/// Rule 2: k = 1.
fn fold_one(table: &Table, operands: Vec<Rc<Form>>) -> Rc<Form> {
    match (table.program(), bit_of(&operands[0])) {
        (0, _) => constant(false),
        (3, _) => constant(true),
        (2, _) => operands[0].clone(),
        (1, Some(bit)) if !slips(Slip::StopsAtANegation) => constant(!bit),
        _ => lut(table, operands),
    }
}

/// Rule 3: the first constant operand, with its bit; if none, the first that no row pair depends on.
fn droppable(table: &Table, operands: &[Rc<Form>]) -> Option<(usize, bool)> {
    let constants = operands.iter().enumerate().filter_map(|(place, form)| Some((place, bit_of(form)?)));
    if let Some((place, bit)) = constants.into_iter().next() {
        return Some((place, bit != slips(Slip::OtherHalf)));
    }
    if slips(Slip::KeepsIdleOperands) {
        return None;
    }
    (0..operands.len()).find(|&place| !table.depends_on(place)).map(|place| (place, false))
}

fn lut(table: &Table, mut operands: Vec<Rc<Form>>) -> Rc<Form> {
    let program = Form { op: Op::Program(table.program()), operands: Vec::new() };
    operands.insert(0, Rc::new(program));
    Rc::new(Form { op: Op::Lut, operands })
}

// ---- the list

/// Each distinct subtree once, at its first visit. Two forms are one subtree if they agree in what they are and in their
/// children's numbers.
#[derive(Default)]
struct Listing {
    list: List,
    listed: HashMap<(Op, Vec<usize>), usize>,
    visited: HashMap<*const Form, usize>,
}

impl Listing {
    /// A form's number in the list, children first and left to right.
    fn number(&mut self, form: &Rc<Form>) -> usize {
        if let Some(&number) = self.visited.get(&Rc::as_ptr(form)) {
            return number;
        }
        let key = (form.op, self.numbers(&form.operands));
        let known = self.listed.get(&key).copied();
        let number = known.unwrap_or_else(|| self.append(key));
        self.visited.insert(Rc::as_ptr(form), number);
        number
    }

    fn numbers(&mut self, operands: &[Rc<Form>]) -> Vec<usize> {
        if slips(Slip::ListsFromTheRight) {
            let mut numbers: Vec<usize> = operands.iter().rev().map(|operand| self.number(operand)).collect();
            numbers.reverse();
            return numbers;
        }
        operands.iter().map(|operand| self.number(operand)).collect()
    }

    fn append(&mut self, key: (Op, Vec<usize>)) -> usize {
        let number = self.list.node_count();
        let words = node_words(key.0, self.list.pool.len(), key.1.len());
        self.list.nodes.extend(words);
        self.list.pool.extend(key.1.iter().map(|&child| child as u32));
        if !(slips(Slip::ProgramsListedAgain) && matches!(key.0, Op::Program(_))) {
            self.listed.insert(key, number);
        }
        number
    }
}

/// The children stand in the pool behind those of the node before; a childless node's part begins there too.
fn node_words(op: Op, pool: usize, count: usize) -> [u32; 3] {
    let first = if count == 0 && slips(Slip::ChildlessAtZero) { 0 } else { pool as u32 };
    let part = |kind| [kind, first, count as u32];
    match op {
        Op::Const(bit) => [0, u32::from(bit), 0],
        Op::Program(program) => [1, program as u32, (program >> 32) as u32],
        Op::Dc => [2, 0, 0],
        Op::Var(variable) => [3, variable, 0],
        Op::Nor | Op::Mux | Op::And | Op::Xor | Op::Not => unreachable!("a gate's normal form is no gate"),
        Op::Lut => part(9),
        Op::Bus => part(10),
        Op::Register(kind) => part(kind),
        Op::Arg => part(15),
        Op::Cycle => part(16),
    }
}

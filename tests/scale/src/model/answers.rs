//! Document 01, "Answers of a node".
use super::list::{Op, Tree};
use crate::slips::{slips, Slip};
use std::rc::Rc;

#[derive(Clone, Copy, Debug, PartialEq, Eq)]
pub enum Failure {
    Undriven = 1,
    DontCare = 2,
    Register = 3,
    Argument = 4,
}

/// The bits as they are written, bit 0 last; or why there are none.
pub type Answer = Result<Vec<bool>, Failure>;

pub fn value(bits: &[bool]) -> u64 {
    bits.iter().fold(0, |value, &bit| value << 1 | u64::from(bit))
}

/// State, width and value, as the C interface writes an answer.
pub fn words(answer: &Answer) -> [u64; 3] {
    match answer {
        Ok(bits) => [0, bits.len() as u64, value(bits)],
        Err(failure) => [*failure as u64, 0, 0],
    }
}

/// The answers under one assignment. A shared node is answered once.
pub struct Answers<'a> {
    driven: &'a dyn Fn(u32) -> Option<bool>,
    known: Vec<Option<Answer>>,
}

impl<'a> Answers<'a> {
    /// For a list of so many nodes, and an assignment that says what drives a variable, if anything.
    pub fn new(nodes: usize, driven: &'a dyn Fn(u32) -> Option<bool>) -> Self {
        Answers { driven, known: vec![None; nodes] }
    }

    pub fn of(&mut self, tree: &Rc<Tree>) -> Answer {
        if let Some(known) = &self.known[tree.place] {
            return known.clone();
        }
        let answer = self.find(tree);
        self.known[tree.place] = Some(answer.clone());
        answer
    }

    fn find(&mut self, tree: &Tree) -> Answer {
        let children = &tree.operands;
        match tree.op {
            Op::Const(bit) => Ok(vec![bit]),
            Op::Program(_) => unreachable!("a Program is no operand in a list past number 8"),
            Op::Dc => Err(Failure::DontCare),
            Op::Var(variable) => (self.driven)(variable).map(|bit| vec![bit]).ok_or(Failure::Undriven),
            Op::Nor => nor(self.of(&children[0]), self.of(&children[1])),
            Op::Mux => self.mux(children),
            Op::And => and(self.of(&children[0]), self.of(&children[1])),
            Op::Xor => xor(self.of(&children[0]), self.of(&children[1])),
            Op::Not => Ok(complement(&self.of(&children[0])?)),
            Op::Lut => self.lut(children),
            Op::Bus => self.bus(children),
            Op::Register(_) => Err(Failure::Register),
            Op::Arg => Err(Failure::Argument),
            Op::Cycle => self.of(&children[0]),
        }
    }

    /// The arm that is not chosen is not looked at.
    fn mux(&mut self, children: &[Rc<Tree>]) -> Answer {
        let selector = self.of(&children[0])?;
        let (chosen, other) = if selector[0] { (1, 2) } else { (2, 1) };
        if slips(Slip::BothArms) {
            self.of(&children[other])?;
        }
        self.of(&children[chosen])
    }

    fn lut(&mut self, children: &[Rc<Tree>]) -> Answer {
        let Op::Program(program) = children[0].op else {
            unreachable!("a Lut past number 6 has its program first");
        };
        let mut row = Vec::new();
        for operand in &children[1..] {
            row.extend(self.of(operand)?);
        }
        Ok(vec![program >> value(&row) & 1 == 1])
    }

    /// The last failing member's failure.
    fn bus(&mut self, members: &[Rc<Tree>]) -> Answer {
        let answers: Vec<Answer> = members.iter().map(|member| self.of(member)).collect();
        let mut failures = answers.iter().filter_map(|answer| answer.as_ref().err());
        let failure = if slips(Slip::BusFirstFailure) { failures.next() } else { failures.next_back() };
        if let Some(&failure) = failure {
            return Err(failure);
        }
        Ok(answers.into_iter().flatten().flatten().collect())
    }
}

fn and(first: Answer, second: Answer) -> Answer {
    match (first, second) {
        (Ok(a), Ok(b)) => Ok(a.iter().zip(&b).map(|(&a, &b)| a && b).collect()),
        (Ok(bits), Err(failure)) | (Err(failure), Ok(bits)) => absorb(bits, false, failure),
        (Err(first), Err(second)) => Err(if slips(Slip::AndSecondFailure) { second } else { first }),
    }
}

fn nor(first: Answer, second: Answer) -> Answer {
    match (first, second) {
        (Ok(a), Ok(b)) => Ok(a.iter().zip(&b).map(|(&a, &b)| !(a || b)).collect()),
        (Ok(_), Err(failure)) | (Err(failure), Ok(_)) if slips(Slip::NorAbsorbsNothing) => Err(failure),
        (Ok(bits), Err(failure)) | (Err(failure), Ok(bits)) => absorb(bits, true, failure),
        (Err(first), Err(_)) => Err(first),
    }
}

/// A failure beside bits that all are the absorbing one gives zeros.
fn absorb(bits: Vec<bool>, absorbing: bool, failure: Failure) -> Answer {
    if bits.iter().all(|&bit| bit == absorbing) {
        return Ok(vec![false; bits.len()]);
    }
    Err(failure)
}

fn xor(first: Answer, second: Answer) -> Answer {
    let (a, b) = (first?, second?);
    Ok(a.iter().zip(&b).map(|(&a, &b)| a != b).collect())
}

fn complement(bits: &[bool]) -> Vec<bool> {
    bits.iter().map(|&bit| !bit).collect()
}

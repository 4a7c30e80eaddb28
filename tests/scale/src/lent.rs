//! Memory that is lent to a call. It stands between two guards, so that whatever was written can be seen afterwards: in
//! it, in front of it and behind it.
use crate::case::Case;
use crate::model::calls::Space;
use std::fmt::LowerHex;

/// Elements of guard on either side.
const GUARD: usize = 8;

/// Words that differ from place to place, none of them 0 nor one that a call writes soon.
pub trait Pattern: Copy + PartialEq + LowerHex {
    fn pattern(place: usize) -> Self;
}

impl Pattern for u8 {
    fn pattern(place: usize) -> u8 {
        0x80 | (place % 0x7f) as u8
    }
}

impl Pattern for u32 {
    fn pattern(place: usize) -> u32 {
        0x8000_0000 + place as u32
    }
}

impl Pattern for u64 {
    fn pattern(place: usize) -> u64 {
        0x8000_0000_0000_0000 + place as u64
    }
}

pub fn rubbish<T: Pattern>(count: usize) -> Vec<T> {
    (GUARD..GUARD + count).map(T::pattern).collect()
}

/// What a case lends to be written, before the call.
pub fn space(case: &Case) -> Space {
    use crate::case::Call::{Canonicalize, Evaluate};
    let pairs = if case.call == Evaluate { case.out } else { 0 };
    let out_nodes = if case.call == Canonicalize { case.out } else { 0 };
    let out_pool = if case.call == Canonicalize { case.out_pool } else { 0 };
    Space {
        work: rubbish(case.work),
        pairs: rubbish(pairs),
        out_nodes: rubbish(out_nodes),
        out_pool: rubbish(out_pool),
    }
}

/// So many elements between their guards.
pub struct Lent<T> {
    name: &'static str,
    memory: Vec<T>,
    length: usize,
}

impl<T: Pattern> Lent<T> {
    pub fn new(name: &'static str, content: &[T]) -> Lent<T> {
        let mut memory: Vec<T> = (0..GUARD).map(T::pattern).collect();
        memory.extend_from_slice(content);
        memory.extend((GUARD + content.len()..2 * GUARD + content.len()).map(T::pattern));
        Lent { name, memory, length: content.len() }
    }

    pub fn len(&self) -> usize {
        self.length
    }

    pub fn pointer(&mut self) -> *mut T {
        self.memory[GUARD..].as_mut_ptr()
    }

    pub fn content(&self) -> &[T] {
        &self.memory[GUARD..GUARD + self.length]
    }

    /// Adds a line for the first element that is not as expected, and one for each guard that was written.
    pub fn expect(&self, expected: &[T], faults: &mut Vec<String>) {
        let pairs = self.content().iter().zip(expected);
        if let Some((place, (is, should))) = pairs.enumerate().find(|(_, (is, should))| is != should) {
            faults.push(format!("{}[{place}] is {is:#x} and should be {should:#x}", self.name));
        }
        self.expect_guard("in front of", 0, faults);
        self.expect_guard("behind", GUARD + self.length, faults);
    }

    fn expect_guard(&self, side: &str, start: usize, faults: &mut Vec<String>) {
        if (start..start + GUARD).any(|place| self.memory[place] != T::pattern(place)) {
            faults.push(format!("what stands {side} {} was written", self.name));
        }
    }
}

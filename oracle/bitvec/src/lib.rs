//! A stand-in for the crate bitvec: what the original touches of it, and no more.
//!
//! Assumed:
//! - a bit vector is a list of bools, bit 0 first;
//! - two are equal if their lengths and all their bits are;
//! - they are ordered by the first bit, from bit 0 on, in which they differ; where one begins the other, the shorter is
//!   below. Every Mux rests on this: the original orders its selector against three zeros;
//! - `&`, `|`, `^` and `!` go bit by bit over equal lengths;
//! - `load` and `store` take bit 0 as the lowest of the number; `store` leaves out the bits past the length.
//!
//! Not assumed: operators over unequal lengths, and `load` and `store` of no bits. There this stand-in panics with a
//! message that begins with [`RESTS`], so that nobody takes it for the original's own answer.

use std::marker::PhantomData;
use std::ops::{BitAnd, BitOr, BitXor, Deref, DerefMut, Not};

pub mod prelude {
    pub use crate::{BitField, BitVec, Lsb0, bitvec};
}

/// How the message of a panic begins that is the stand-in's and not the original's.
pub const RESTS: &str = "rests on the stand-in: ";

#[derive(Debug, Clone, Copy, PartialEq, Eq, PartialOrd, Ord)]
pub struct Lsb0;

/// The storage type and the order of bits are names alone here.
#[derive(Debug, Clone, PartialEq, Eq, PartialOrd, Ord)]
pub struct BitVec<T = usize, O = Lsb0> {
    bits: Vec<bool>,
    named: PhantomData<(T, O)>,
}

impl<T, O> BitVec<T, O> {
    pub fn of(bits: Vec<bool>) -> Self {
        Self { bits, named: PhantomData }
    }

    pub fn with_capacity(capacity: usize) -> Self {
        Self::of(Vec::with_capacity(capacity))
    }

    pub fn repeat(bit: bool, length: usize) -> Self {
        Self::of(vec![bit; length])
    }

    pub fn push(&mut self, bit: bool) {
        self.bits.push(bit);
    }

    pub fn insert(&mut self, at: usize, bit: bool) {
        self.bits.insert(at, bit);
    }

    pub fn set(&mut self, at: usize, bit: bool) {
        self.bits[at] = bit;
    }

    fn joined(self, other: Self, operator: fn(bool, bool) -> bool) -> Self {
        if self.len() != other.len() {
            panic!("{RESTS}an operator over {} and {} bits", self.len(), other.len());
        }
        let pairs = self.iter().zip(other.iter());
        Self::of(pairs.map(|(a, b)| operator(*a, *b)).collect())
    }
}

/// Length, bits by number and parts by range are those of the list.
impl<T, O> Deref for BitVec<T, O> {
    type Target = [bool];

    fn deref(&self) -> &[bool] {
        &self.bits
    }
}

impl<T, O> DerefMut for BitVec<T, O> {
    fn deref_mut(&mut self) -> &mut [bool] {
        &mut self.bits
    }
}

impl<T, O> BitAnd for BitVec<T, O> {
    type Output = Self;

    fn bitand(self, other: Self) -> Self {
        self.joined(other, |a, b| a & b)
    }
}

impl<T, O> BitOr for BitVec<T, O> {
    type Output = Self;

    fn bitor(self, other: Self) -> Self {
        self.joined(other, |a, b| a | b)
    }
}

impl<T, O> BitXor for BitVec<T, O> {
    type Output = Self;

    fn bitxor(self, other: Self) -> Self {
        self.joined(other, |a, b| a ^ b)
    }
}

impl<T, O> Not for BitVec<T, O> {
    type Output = Self;

    fn not(self) -> Self {
        Self::of(self.iter().map(|bit| !bit).collect())
    }
}

/// Bits as a number.
pub trait BitField {
    fn load<I: From<u64>>(&self) -> I;
    fn store<I: Into<u64>>(&mut self, value: I);
}

fn fits(length: usize) {
    if !(1..=64).contains(&length) {
        panic!("{RESTS}a number of {length} bits");
    }
}

impl BitField for [bool] {
    fn load<I: From<u64>>(&self) -> I {
        fits(self.len());
        I::from(self.iter().rev().fold(0, |value, bit| value << 1 | u64::from(*bit)))
    }

    fn store<I: Into<u64>>(&mut self, value: I) {
        fits(self.len());
        let value: u64 = value.into();
        for (place, bit) in self.iter_mut().enumerate() {
            *bit = value >> place & 1 == 1;
        }
    }
}

/// The one form that the original writes: storage, order; the bit as a number; the length.
#[macro_export]
macro_rules! bitvec {
    ($storage:ty, $order:ty; $bit:expr; $length:expr) => {
        $crate::BitVec::<$storage, $order>::repeat($bit != 0, $length)
    };
}

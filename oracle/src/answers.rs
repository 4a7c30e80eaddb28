//! Answers of the original's `eval`, as document 01 tells them.

use egg::RecExpr;
use original::lut::LutLang;
use std::collections::HashMap;

/// A value's bits, bit 0 first, or a failure's state.
#[derive(Debug, Clone, PartialEq, Eq)]
pub enum Answer {
    Value(Vec<bool>),
    Failure(u64),
}

pub type Assignment = HashMap<String, bool>;

pub fn evaluated(expr: &RecExpr<LutLang>, driven: &Assignment) -> Answer {
    match LutLang::eval(expr, driven) {
        Ok(bits) => Answer::Value(bits.to_vec()),
        Err(message) => Answer::Failure(state_of(&message)),
    }
}

/// The original fails with a message alone; its first word tells the four apart.
fn state_of(message: &str) -> u64 {
    match message.split(' ').next() {
        Some("Input") => 1,
        Some("DC") => 2,
        Some("REG") => 3,
        Some("ARG") => 4,
        _ => panic!("a failure that the oracle does not know: {message}"),
    }
}

impl Answer {
    /// State, width and value; the value is decimal however wide it is.
    pub fn told(&self) -> String {
        match self {
            Answer::Value(bits) => format!("0 {} {}", bits.len(), decimal(bits)),
            Answer::Failure(state) => format!("{state} 0 0"),
        }
    }
}

fn decimal(bits: &[bool]) -> String {
    let mut digits = vec![0];
    for bit in bits.iter().rev() {
        double(&mut digits, u8::from(*bit));
    }
    digits.iter().rev().map(|digit| char::from(b'0' + digit)).collect()
}

/// Twice the number, and one more where the bit says so; the lowest digit first.
fn double(digits: &mut Vec<u8>, bit: u8) {
    let mut carry = bit;
    for digit in digits.iter_mut() {
        let doubled = 2 * *digit + carry;
        *digit = doubled % 10;
        carry = doubled / 10;
    }
    if carry > 0 {
        digits.push(carry);
    }
}

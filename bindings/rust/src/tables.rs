//! The truth-table routines. A program over k operands is a word whose bit r is the table's row r; k is at most 6, and the
//! program below 2^(2^k). Any number may come in as an argument; one outside its range is answered with `OutOfRange`,
//! which is number 13.
use crate::numbers::{Foreign, Number};
use crate::raw;

/// What [`eval_lut`] and [`eval_lut_bv`] answer.
#[derive(Clone, Copy, Debug, PartialEq, Eq, Hash)]
pub enum LutBit {
    /// The row.
    Bit(bool),
    /// More than six inputs, or one above 1.
    OutOfRange,
}

/// What [`to_bitvec`] answers.
#[derive(Clone, Copy, Debug, PartialEq, Eq, Hash)]
pub enum BitVector {
    /// A vector.
    Bits {
        /// How many bits.
        width: u64,
        /// The bits.
        value: u64,
    },
    /// A capacity above 64, or a program with more bits.
    OutOfRange,
}

/// What [`remove_lsb_var`] answers.
#[derive(Clone, Copy, Debug, PartialEq, Eq, Hash)]
pub enum Removed {
    /// The program over one operand less.
    Smaller(u64),
    /// A row depends on the lowest operand, or k is below 2.
    Nothing,
    /// k above 6, or the program out of range for it.
    OutOfRange,
}

/// What [`eval_lut_const_input`] and [`swap_pos`] answer.
#[derive(Clone, Copy, Debug, PartialEq, Eq, Hash)]
pub enum TableProgram {
    /// The program.
    Program(u64),
    /// An argument out of its range.
    OutOfRange,
}

/// What [`cofactors_in_msb`] answers.
#[derive(Clone, Copy, Debug, PartialEq, Eq, Hash)]
pub enum Cofactors {
    /// Both halves.
    Pair {
        /// Where the highest operand is 1.
        high: u64,
        /// Where it is 0.
        low: u64,
    },
    /// k below 2 or above 6, or the program out of range for it.
    OutOfRange,
}

// ---- the routines

/// The row of the program that the inputs name, the first input being the row number's highest bit.
pub fn eval_lut(p: u64, inputs: &[u8]) -> Result<LutBit, Foreign> {
    // SAFETY: the pointer stands with its slice's own length, and the answer block is as the call asks.
    lut_bit(answered(|answer| unsafe { raw::panel_eval_lut(p, inputs.as_ptr(), inputs.len(), answer) })?)
}

/// The same, the first input being the row number's lowest bit.
pub fn eval_lut_bv(p: u64, inputs: &[u8]) -> Result<LutBit, Foreign> {
    // SAFETY: as for eval_lut.
    lut_bit(answered(|answer| unsafe { raw::panel_eval_lut_bv(p, inputs.as_ptr(), inputs.len(), answer) })?)
}

/// The program as a vector of `capacity` bits.
pub fn to_bitvec(p: u64, capacity: u64) -> Result<BitVector, Foreign> {
    // SAFETY: the answer block is as the call asks; so it is in all below.
    Ok(match answered(|answer| unsafe { raw::panel_to_bitvec(p, capacity, answer) })? {
        Some([width, value]) => BitVector::Bits { width, value },
        None => BitVector::OutOfRange,
    })
}

/// The program without its lowest operand, where no row depends on it.
pub fn remove_lsb_var(p: u64, k: u64) -> Result<Removed, Foreign> {
    match answered(|answer| unsafe { raw::panel_remove_lsb_var(p, k, answer) })? {
        Some([0, 0]) => Ok(Removed::Nothing),
        Some([1, program]) => Ok(Removed::Smaller(program)),
        Some([0, word] | [word, _]) => Err(Foreign(word)),
        None => Ok(Removed::OutOfRange),
    }
}

/// The program over `msb` + 1 operands with its highest operand held at `v`, which is 0 or 1.
pub fn eval_lut_const_input(p: u64, msb: u64, v: u64) -> Result<TableProgram, Foreign> {
    table_program(answered(|answer| unsafe { raw::panel_eval_lut_const_input(p, msb, v, answer) })?)
}

/// Both halves of a program over `k` operands.
pub fn cofactors_in_msb(p: u64, k: u64) -> Result<Cofactors, Foreign> {
    Ok(match answered(|answer| unsafe { raw::panel_cofactors_in_msb(p, k, answer) })? {
        Some([high, low]) => Cofactors::Pair { high, low },
        None => Cofactors::OutOfRange,
    })
}

/// The program after its operands `pos` and `pos` + 1, counted from the lowest, change places.
pub fn swap_pos(p: u64, k: u64, pos: u64) -> Result<TableProgram, Foreign> {
    table_program(answered(|answer| unsafe { raw::panel_swap_pos(p, k, pos, answer) })?)
}

// ---- from words

/// The two words behind number 0; nothing for number 13, behind which stand 0 and 0.
fn answered(call: impl FnOnce(&mut [u64; 3])) -> Result<Option<[u64; 2]>, Foreign> {
    let mut answer = [0; 3];
    call(&mut answer);
    let [number, first, second] = answer;
    match (number, first, second) {
        (0, ..) => Ok(Some([first, second])),
        (_, 0, 0) if number == Number::BadTable.word() => Ok(None),
        _ => Err(Foreign(number)),
    }
}

fn lut_bit(words: Option<[u64; 2]>) -> Result<LutBit, Foreign> {
    match words {
        Some([0, 0]) => Ok(LutBit::Bit(false)),
        Some([1, 0]) => Ok(LutBit::Bit(true)),
        Some([0 | 1, word] | [word, _]) => Err(Foreign(word)),
        None => Ok(LutBit::OutOfRange),
    }
}

fn table_program(words: Option<[u64; 2]>) -> Result<TableProgram, Foreign> {
    match words {
        Some([program, 0]) => Ok(TableProgram::Program(program)),
        Some([_, word]) => Err(Foreign(word)),
        None => Ok(TableProgram::OutOfRange),
    }
}

//! Document 01, "Truth-table routines". A table is a map from rows to bools; a row is written with its first operand,
//! the most significant, first.
use super::list::{refuse, Refusal};
use crate::slips::{slips, Slip};
use std::collections::BTreeMap;

#[derive(Clone, Debug, PartialEq, Eq)]
pub struct Table {
    operands: usize,
    rows: BTreeMap<Vec<bool>, bool>,
}

impl Table {
    /// The table of a program: bit r is row r.
    pub fn new(program: u64, operands: usize) -> Self {
        let row = |r: u64| (0..operands).rev().map(|bit| r >> bit & 1 == 1).collect();
        let rows = (0..1u64 << operands).map(|r| (row(r), program >> r & 1 == 1)).collect();
        Table { operands, rows }
    }

    /// Rows are sorted as their numbers are.
    pub fn program(&self) -> u64 {
        self.rows.values().rev().fold(0, |program, &bit| program << 1 | u64::from(bit))
    }

    pub fn at(&self, row: &[bool]) -> bool {
        self.rows[row]
    }

    /// The rows at which an operand is held, without it.
    pub fn held(&self, operand: usize, at: bool) -> Table {
        let left = self.rows.iter().filter(|(row, _)| row[operand] == at);
        let rows = left.map(|(row, &bit)| (without(row, operand), bit)).collect();
        Table { operands: self.operands - 1, rows }
    }

    pub fn depends_on(&self, operand: usize) -> bool {
        self.held(operand, false) != self.held(operand, true)
    }

    /// The table after two operands change places.
    fn swapped(&self, a: usize, b: usize) -> Table {
        let swap = |row: &Vec<bool>| {
            let mut row = row.clone();
            row.swap(a, b);
            row
        };
        let rows = self.rows.iter().map(|(row, &bit)| (swap(row), bit)).collect();
        Table { operands: self.operands, rows }
    }
}

fn without(row: &[bool], operand: usize) -> Vec<bool> {
    [&row[..operand], &row[operand + 1..]].concat()
}

/// Two words behind the number.
pub type TableAnswer = Result<[u64; 2], Refusal>;

/// p as a table over k operands, with p below 2^(2^k) and k at most 6; else 13.
fn table(p: u64, k: u64) -> Result<Table, Refusal> {
    if k > 6 || u128::from(p) >= 1 << (1 << k) {
        return refuse(13);
    }
    Ok(Table::new(p, k as usize))
}

/// Any p will do: rows past the inputs' are not looked at.
fn look_up(p: u64, bytes: Vec<u8>) -> TableAnswer {
    if bytes.len() > 6 || bytes.iter().any(|&byte| byte > 1) {
        return refuse(13);
    }
    let row: Vec<bool> = bytes.iter().map(|&byte| byte == 1).collect();
    Ok([u64::from(Table::new(p, row.len()).at(&row)), 0])
}

/// The first input is the high row bit.
pub fn eval_lut(p: u64, bytes: &[u8]) -> TableAnswer {
    if slips(Slip::LutFromTheLowEnd) {
        return eval_lut_bv(p, bytes);
    }
    look_up(p, bytes.to_vec())
}

/// The first input is the low row bit.
pub fn eval_lut_bv(p: u64, bytes: &[u8]) -> TableAnswer {
    look_up(p, bytes.iter().rev().copied().collect())
}

pub fn to_bitvec(p: u64, capacity: u64) -> TableAnswer {
    if capacity > 64 || u128::from(p) >= 1 << capacity {
        return refuse(13);
    }
    Ok([capacity, p])
}

/// None is 0 and 0; for k below 2 it comes before any range.
pub fn remove_lsb_var(p: u64, k: u64) -> TableAnswer {
    if k < 2 && !slips(Slip::RangeBeforeNone) {
        return Ok([0, 0]);
    }
    let table = table(p, k)?;
    let Some(lowest) = table.operands.checked_sub(1).filter(|&lowest| lowest > 0) else {
        return Ok([0, 0]);
    };
    if table.depends_on(lowest) {
        return Ok([0, 0]);
    }
    Ok([1, table.held(lowest, false).program()])
}

pub fn eval_lut_const_input(p: u64, msb: u64, v: u64) -> TableAnswer {
    if msb > 5 || v > 1 {
        return refuse(13);
    }
    let table = table(p, msb + 1)?;
    Ok([table.held(0, v == 1).program(), 0])
}

/// High, then low.
pub fn cofactors_in_msb(p: u64, k: u64) -> TableAnswer {
    if k < 2 {
        return refuse(13);
    }
    let table = table(p, k)?;
    Ok([table.held(0, true).program(), table.held(0, false).program()])
}

/// Row bits pos and pos + 1, counted from the low end; pos + 1 doesn't wrap.
pub fn swap_pos(p: u64, k: u64, pos: u64) -> TableAnswer {
    if k > 6 || pos >= 6 || pos + 1 >= k {
        return refuse(13);
    }
    let table = table(p, k)?;
    let from_end = if slips(Slip::SwapFromTheHighEnd) { k - 2 - pos } else { pos } as usize;
    let low = table.operands - 1 - from_end;
    Ok([table.swapped(low, low - 1).program(), 0])
}

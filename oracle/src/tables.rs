//! The truth-table routines: three words as the C interface gives them, number 0 first.

use crate::lists::Malformed;
use crate::turn::Turn;
use bitvec::prelude::BitVec;
use original::lut;

pub fn answer(line: &str, turn: &mut Turn) -> Result<String, Malformed> {
    let mut words = line.split_ascii_whitespace();
    let routine = words.next().ok_or(Malformed)?;
    let arguments: Result<Vec<u64>, _> = words.map(str::parse).collect();
    let arguments = arguments.map_err(|_| Malformed)?;
    let words = match (routine, arguments.as_slice()) {
        ("eval_lut", [p, inputs @ ..]) => eval_lut(*p, inputs, turn)?,
        ("eval_lut_bv", [p, inputs @ ..]) => eval_lut_bv(*p, inputs, turn)?,
        ("to_bitvec", [p, capacity]) => match to_bitvec(*p, *capacity, turn) {
            None => return Ok("error".to_string()),
            Some(words) => words,
        },
        ("remove_lsb_var", [p, k]) => remove_lsb_var(*p, *k, turn),
        ("eval_lut_const_input", [p, msb, v @ (0 | 1)]) => {
            [turn.run(|| (p, *msb as usize, *v == 1), |(p, msb, v)| lut::eval_lut_const_input(p, msb, v)), 0]
        }
        ("cofactors_in_msb", [p, k]) => turn.run(|| (p, *k as usize), |(p, k)| lut::cofactors_in_msb(p, k)).into(),
        ("swap_pos", [p, k, pos]) => {
            [turn.run(|| (p, *k as usize, *pos as usize), |(p, k, pos)| lut::swap_pos(p, k, pos)), 0]
        }
        _ => return Err(Malformed),
    };
    Ok(format!("0 {} {}", words[0], words[1]))
}

/// Inputs are bools in the original, so a byte above 1 can't be said to it.
fn bits(inputs: &[u64]) -> Result<Vec<bool>, Malformed> {
    if inputs.iter().any(|input| *input > 1) {
        return Err(Malformed);
    }
    Ok(inputs.iter().map(|input| *input == 1).collect())
}

fn eval_lut(p: u64, inputs: &[u64], turn: &mut Turn) -> Result<[u64; 2], Malformed> {
    let inputs = bits(inputs)?;
    Ok([u64::from(turn.run(|| (p, inputs.as_slice()), |(p, inputs)| lut::eval_lut(p, inputs))), 0])
}

fn eval_lut_bv(p: u64, inputs: &[u64], turn: &mut Turn) -> Result<[u64; 2], Malformed> {
    let inputs: BitVec = BitVec::of(bits(inputs)?);
    Ok([u64::from(turn.run(|| (p, &inputs), |(p, inputs)| lut::eval_lut_bv(p, inputs))), 0])
}

/// Width and value; none where the original answers with an error.
fn to_bitvec(p: u64, capacity: u64, turn: &mut Turn) -> Option<[u64; 2]> {
    let made = turn.run(|| (p, capacity as usize), |(p, capacity)| lut::to_bitvec(p, capacity)).ok()?;
    Some([made.len() as u64, lut::from_bitvec(&made)])
}

fn remove_lsb_var(p: u64, k: u64, turn: &mut Turn) -> [u64; 2] {
    let left = turn.run(|| (p, k as usize), |(p, k)| lut::remove_lsb_var(p, k));
    left.map_or([0, 0], |program| [1, program])
}

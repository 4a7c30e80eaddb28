//! Arguments of the truth-table routines: in range, at its ends, and any words.
use super::rng::Rng;
use super::sound::random_program;
use crate::case::{Call, Case};

pub fn table_case(rng: &mut Rng, call: Call) -> Case {
    let mut case = Case::new(call);
    let k = small(rng, 7);
    case.numbers[0] = program_near(rng, k);
    match call {
        Call::EvalLut | Call::EvalLutBv => case.bytes = inputs(rng),
        Call::ToBitvec => {
            case.numbers[1] = capacity(rng);
            case.numbers[0] = value_near(rng, case.numbers[1]);
        }
        Call::EvalLutConstInput => {
            case.numbers[1] = k.wrapping_sub(1);
            case.numbers[2] = small(rng, 1);
        }
        Call::SwapPos => {
            case.numbers[1] = k;
            case.numbers[2] = small(rng, k.saturating_sub(1).min(6) as usize);
        }
        _ => case.numbers[1] = k,
    }
    case
}

/// A number from 0 to the last; now and then one more, or a huge one.
fn small(rng: &mut Rng, last: usize) -> u64 {
    match rng.below(20) {
        0 => last as u64 + 1,
        1 => rng.pick(&[8, 63, 64, 65, 255, 256, 1 << 31, 1 << 32, 1 << 63, u64::MAX - 1, u64::MAX]),
        _ => rng.below(last + 1) as u64,
    }
}

/// A program over k operands, at its range's end, or any word.
fn program_near(rng: &mut Rng, k: u64) -> u64 {
    let k = k.min(6) as usize;
    let end = 1u128 << (1 << k);
    match rng.below(12) {
        0 => (end - 1) as u64,
        1 => end as u64,
        2 => rng.next(),
        _ => random_program(rng, k),
    }
}

fn inputs(rng: &mut Rng) -> Vec<u8> {
    let count = rng.weighted(&[2, 3, 4, 4, 4, 4, 8, 2, 1]);
    let mut bytes: Vec<u8> = (0..count).map(|_| rng.below(2) as u8).collect();
    if count > 0 && rng.percent(15) {
        bytes[rng.below(count)] = rng.pick(&[2, 3, 128, 255]);
    }
    bytes
}

fn capacity(rng: &mut Rng) -> u64 {
    match rng.below(20) {
        0 => rng.pick(&[65, 66, 128, 1 << 32, u64::MAX]),
        1 => rng.pick(&[0, 1, 63, 64]),
        _ => rng.below(65) as u64,
    }
}

/// A value below 2^capacity, at its end, or any word.
fn value_near(rng: &mut Rng, capacity: u64) -> u64 {
    let end = 1u128 << capacity.min(64);
    match rng.below(8) {
        0 => (end - 1) as u64,
        1 => end as u64,
        2 => rng.next(),
        _ => (u128::from(rng.next()) % end) as u64,
    }
}

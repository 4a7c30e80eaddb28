//! The truth-table routines over all small arguments and at the ends of their ranges.
use super::*;

/// Programs at the ends of every range, and the examples of document 01.
const PROGRAMS: [u64; 24] = [
    0,
    1,
    2,
    3,
    4,
    8,
    12,
    15,
    16,
    195,
    202,
    255,
    256,
    0xffff,
    0x1_0000,
    0xffff_fffe,
    0xffff_ffff,
    0x1_0000_0000,
    1 << 63,
    (1 << 63) - 1,
    0xaaaa_aaaa_aaaa_aaaa,
    0x0123_4567_89ab_cdef,
    u64::MAX - 1,
    u64::MAX,
];

const SMALL: [u64; 15] = [0, 1, 2, 3, 4, 5, 6, 7, 8, 63, 64, 65, 1 << 32, 1 << 63, u64::MAX];

pub fn add(cases: &mut Vec<Case>) {
    for p in PROGRAMS {
        inputs(p, cases);
        for a in SMALL {
            for call in [Call::RemoveLsbVar, Call::CofactorsInMsb, Call::ToBitvec] {
                cases.push(table(call, [p, a, 0]));
            }
            for b in SMALL {
                cases.push(table(Call::EvalLutConstInput, [p, a, b]));
                cases.push(table(Call::SwapPos, [p, a, b]));
            }
        }
    }
    capacities(cases);
}

fn table(call: Call, numbers: [u64; 3]) -> Case {
    Case { numbers, ..Case::new(call) }
}

/// All bits up to three inputs; then all zeros, all ones and one byte out of range, up to eight inputs.
fn inputs(p: u64, cases: &mut Vec<Case>) {
    let mut rows: Vec<Vec<u8>> = Vec::new();
    for count in 0..=3 {
        rows.extend((0..1u8 << count).map(|row| (0..count).map(|bit| row >> bit & 1).collect()));
    }
    for count in 4..=8 {
        rows.extend([vec![0; count], vec![1; count]]);
    }
    for (count, byte) in [(1, 2), (1, 255), (3, 2), (6, 2), (6, 128), (7, 1), (255, 0)] {
        let mut row = vec![1; count];
        row[count - 1] = byte;
        rows.push(row);
    }
    for bytes in rows {
        for call in [Call::EvalLut, Call::EvalLutBv] {
            cases.push(Case { bytes: bytes.clone(), ..table(call, [p, 0, 0]) });
        }
    }
}

/// Every capacity, with a value at its end and one below.
fn capacities(cases: &mut Vec<Case>) {
    for capacity in 0..=66 {
        let end = 1u128 << capacity;
        for p in [0, end - 1, end, end + 1] {
            cases.push(table(Call::ToBitvec, [p.min(u128::from(u64::MAX)) as u64, capacity, 0]));
        }
    }
}

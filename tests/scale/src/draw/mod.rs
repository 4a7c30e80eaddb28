//! Inputs for every call: random sound lists, damaged ones, boundaries by hand and pure noise.
pub mod boundary;
mod damage;
pub mod draft;
mod noise;
mod pairs;
pub mod rng;
mod sound;
mod tables;

use crate::case::{Call, Case};
use crate::model::calls::canonical_of;
use crate::model::list::List;
use draft::{Draft, LAYOUTS};
use rng::Rng;

/// A random case of a call, with what it is lent.
pub fn random_case(rng: &mut Rng, call: Call) -> Case {
    if call.lists() == 0 {
        return tables::table_case(rng, call);
    }
    let mut case = Case::new(call);
    let variables = variables(rng, call);
    let size = size(rng, call, variables.len());
    case.lists = lists(rng, call, size, &variables);
    if call == Call::Compare && rng.percent(3) {
        case.lists[1] = case.lists[0].clone();
        case.lent_once = true;
    }
    match call {
        Call::Evaluate => case.bytes = bytes(rng),
        Call::Separate => set_marks(rng, &mut case, &variables),
        _ => {}
    }
    lend(rng, &mut case);
    case
}

// ---- variables and sizes

/// Few variables, so that all their assignments can be tried: up to 8, seldom 12.
fn variables(rng: &mut Rng, call: Call) -> Vec<u32> {
    let searches = matches!(call, Call::Compare | Call::Separate);
    let count = match rng.below(400) {
        0 if searches => 12,
        1..=60 => rng.within(6, 8),
        61..=80 => rng.within(0, 1),
        _ => rng.within(2, 5),
    };
    let bound = if call == Call::Separate { 30 } else { 256 };
    if rng.percent(50) {
        return (0..count as u32).collect();
    }
    (0..count).map(|_| rng.below(bound) as u32).collect()
}

fn size(rng: &mut Rng, call: Call, variables: usize) -> usize {
    let searches = matches!(call, Call::Compare | Call::Separate);
    match rng.below(200) {
        0 if !searches || variables < 6 => rng.within(60, 300),
        1..=40 => rng.within(20, 50),
        41..=60 => rng.within(1, 4),
        _ => rng.within(3, 24),
    }
}

// ---- lists

fn lists(rng: &mut Rng, call: Call, size: usize, variables: &[u32]) -> [List; 2] {
    let first = sound::sound_draft(rng, size, variables);
    let second =
        if call == Call::Compare { pairs::second_draft(rng, &first, size, variables) } else { Draft::default() };
    let mut lists = [first, second].map(|draft| {
        let layout = rng.pick(&LAYOUTS);
        draft.lay_out(layout, rng)
    });
    if call.lists() == 2 && rng.percent(4) {
        lists.swap(0, 1);
    }
    spoil(rng, &mut lists[..call.lists()]);
    lists
}

/// Three in ten cases have a damaged list, one in fifteen one of noise.
fn spoil(rng: &mut Rng, lists: &mut [List]) {
    let list = rng.below(lists.len());
    match rng.below(100) {
        0..=29 => damage::damage(rng, &mut lists[list]),
        30..=36 => lists[list] = noise::noise(rng),
        37 => lists[list] = List::default(),
        _ => {}
    }
}

// ---- what is lent beside the lists

fn bytes(rng: &mut Rng) -> Vec<u8> {
    let count = match rng.below(30) {
        0 => rng.pick(&[255, 256, 257, 300]),
        1 => 0,
        2..=9 => rng.within(100, 256),
        _ => rng.within(1, 12),
    };
    let undriven = rng.pick(&[0, 5, 30]);
    let mut bytes: Vec<u8> = (0..count).map(|_| if rng.percent(undriven) { 2 } else { rng.below(2) as u8 }).collect();
    if count > 0 && rng.percent(5) {
        bytes[rng.below(count)] = rng.pick(&[3, 4, 128, 255]);
    }
    bytes
}

/// n just above the greatest variable or more; marks below n. Seldom either is out of bounds.
fn set_marks(rng: &mut Rng, case: &mut Case, variables: &[u32]) {
    let least = variables.iter().max().map_or(0, |&greatest| greatest as usize + 1);
    let n = match rng.below(24) {
        0 => rng.pick(&[31, 32, 33, 64, 1 << 31, u32::MAX]),
        1 => least.saturating_sub(1) as u32,
        2 => 30,
        _ => rng.within(least, (least + 3).min(30)) as u32,
    };
    let below = if n >= 32 { u32::MAX } else { (1 << n) - 1 };
    let mut marks = rng.next() as u32 & below;
    match rng.below(24) {
        0 => marks |= 1 << rng.pick(&[n.min(31), 30, 31]),
        1 => marks = 0,
        2..=12 if !variables.is_empty() => marks = 1 << rng.pick(variables) & below,
        _ => {}
    }
    case.numbers = [u64::from(n), u64::from(marks), 0];
}

/// Work space and outputs: mostly exact or longer, now and then one short or much too short.
fn lend(rng: &mut Rng, case: &mut Case) {
    case.work = near(rng, case.work_asked());
    match case.call {
        Call::Evaluate => case.out = near(rng, 2 * case.lists[0].node_count()),
        Call::Canonicalize => {
            let answer = canonical_of(&case.lists[0]).unwrap_or_default();
            case.out = near(rng, answer.nodes.len());
            case.out_pool = near(rng, answer.pool.len());
        }
        _ => {}
    }
}

fn near(rng: &mut Rng, exact: usize) -> usize {
    match rng.below(40) {
        0 => exact.saturating_sub(1),
        1 => rng.below(exact + 1),
        2..=12 => exact + rng.pick(&[1, 2, 3, 16, 50]),
        _ => exact,
    }
}

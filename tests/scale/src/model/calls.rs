//! Document 01, "Numbers a call answers with": the order of the refusals of every call, its answer words as
//! include/panel.h lays them out, and what it leaves in work space and outputs.
use super::answers::{words, Answers};
use super::canonical::canonical;
use super::comparison::{compare, INCONCLUSIVE};
use super::evaluable::{check, check_gates, Shape, Sound};
use super::list::{check_sizes, read, refuse, List, Refusal, MOST_NODES, MOST_POOL};
use super::separation::{check_bounds, separate, CROSSING};
use super::tables;
use super::verification::{reach, verify};
use crate::case::{Call, Case};
use crate::slips::{slips, Slip};

/// What is lent to be written, without the answer block.
#[derive(Clone, Debug, Default, PartialEq, Eq)]
pub struct Space {
    pub work: Vec<u64>,
    pub pairs: Vec<u64>,
    pub out_nodes: Vec<u32>,
    pub out_pool: Vec<u32>,
}

/// The answer block, and the space afterwards.
pub struct Outcome {
    pub answer: Vec<u64>,
    pub space: Space,
}

pub fn outcome(case: &Case, before: &Space) -> Outcome {
    let mut space = before.clone();
    let answer = if case.call.lists() == 0 { table_answer(case) } else { list_answer(case, &mut space) };
    Outcome { answer, space }
}

// ---- truth tables: number and two words

fn table_answer(case: &Case) -> Vec<u64> {
    let [p, a, b] = case.numbers;
    let answer = match case.call {
        Call::EvalLut => tables::eval_lut(p, &case.bytes),
        Call::EvalLutBv => tables::eval_lut_bv(p, &case.bytes),
        Call::ToBitvec => tables::to_bitvec(p, a),
        Call::RemoveLsbVar => tables::remove_lsb_var(p, a),
        Call::EvalLutConstInput => tables::eval_lut_const_input(p, a, b),
        Call::CofactorsInMsb => tables::cofactors_in_msb(p, a),
        _ => tables::swap_pos(p, a, b),
    };
    match answer {
        Ok([first, second]) => vec![0, first, second],
        Err(refusal) => vec![refusal.number, 0, 0],
    }
}

// ---- lists: number, node and what the call adds

fn list_answer(case: &Case, space: &mut Space) -> Vec<u64> {
    if let Err(refusal) = check_lent(case) {
        return refused(case.call, refusal);
    }
    clear(&mut space.work, case.work_asked());
    match list_result(case, space) {
        Ok(result) => [vec![0, 0], result].concat(),
        Err(refusal) => refused(case.call, refusal),
    }
}

/// 1 and 2 for each list, first list first; then 10.
fn check_lent(case: &Case) -> Result<(), Refusal> {
    let is_little = case.work < case.work_asked();
    if is_little && slips(Slip::TenBeforeTwo) {
        return refuse(10);
    }
    case.brought().iter().try_for_each(check_sizes)?;
    if is_little {
        return refuse(10);
    }
    Ok(())
}

/// All that was lent, also past what was asked.
fn clear(work: &mut [u64], asked: usize) {
    let end = if slips(Slip::WorkLeftPastAsked) { asked } else { work.len() };
    work[..end].fill(0);
}

/// Number and node; then zeros, but for a verdict or a judgement.
fn refused(call: Call, refusal: Refusal) -> Vec<u64> {
    let mut answer = vec![0; call.answer_words()];
    answer[0] = refusal.number;
    answer[1] = refusal.node;
    match call {
        Call::Compare => answer[2] = INCONCLUSIVE,
        Call::Separate => answer[2] = CROSSING,
        _ => {}
    }
    answer
}

fn list_result(case: &Case, space: &mut Space) -> Result<Vec<u64>, Refusal> {
    match case.call {
        Call::Verify => verify_list(&case.lists[0]),
        Call::Evaluate => evaluate(case, &mut space.pairs),
        Call::Compare => compare_lists(case),
        Call::Separate => separate_list(case),
        _ => canonicalize(case, space),
    }
}

/// Numbers 3 to 8.
pub fn sound(list: &List) -> Result<Sound, Refusal> {
    check(read(list)?)
}

/// The verifier's own call ends at 6; an empty list verifies.
fn verify_list(list: &List) -> Result<Vec<u64>, Refusal> {
    let trees = read(list)?;
    match trees.last() {
        Some(root) => verify(&trees, &reach(root))?,
        None if slips(Slip::VerifierNeedsARoot) => refuse(7)?,
        None => {}
    }
    Ok(Vec::new())
}

fn evaluate(case: &Case, pairs: &mut [u64]) -> Result<Vec<u64>, Refusal> {
    let sound = sound(&case.lists[0])?;
    let asked = 2 * sound.trees.len();
    if pairs.len() < asked && slips(Slip::NineteenBeforeTwelve) {
        return refuse(19);
    }
    if case.bytes.len() > 256 || case.bytes.iter().any(|&byte| byte > 2) {
        return refuse(12);
    }
    if pairs.len() < asked {
        return refuse(19);
    }
    if slips(Slip::OutputClearedBehind) {
        pairs[asked..].fill(0);
    }
    write_pairs(&sound, &case.bytes, pairs);
    Ok(Vec::new())
}

/// A state and a value for each node: 5 and 0 for Programs and for nodes that the root does not reach.
fn write_pairs(sound: &Sound, bytes: &[u8], pairs: &mut [u64]) {
    let driven = |variable: u32| match bytes.get(variable as usize) {
        Some(0) => Some(false),
        Some(1) => Some(true),
        _ => None,
    };
    let mut answers = Answers::new(sound.trees.len(), &driven);
    for (tree, pair) in sound.trees.iter().zip(pairs.chunks_exact_mut(2)) {
        let is_answered = sound.shapes.contains_key(&tree.place);
        let [state, _, value] = if is_answered { words(&answers.of(tree)) } else { [5, 0, 0] };
        pair.copy_from_slice(&[state, value]);
    }
}

/// All of 3 to 8 for the first list, then all of 3 to 8 for the second; then the tree test and 9.
fn compare_lists(case: &Case) -> Result<Vec<u64>, Refusal> {
    if slips(Slip::LayoutsOfBothFirst) {
        read(&case.lists[0])?;
        read(&case.lists[1])?;
    }
    let first = sound(&case.lists[0])?;
    let second = sound(&case.lists[1])?;
    Ok(compare(&first, &second)?.to_vec())
}

fn separate_list(case: &Case) -> Result<Vec<u64>, Refusal> {
    let sound = sound(&case.lists[0])?;
    let [n, marks, _] = case.numbers;
    check_bounds(&sound, n, marks)?;
    Ok(separate(&sound, marks).to_vec())
}

fn canonicalize(case: &Case, space: &mut Space) -> Result<Vec<u64>, Refusal> {
    let sound = sound(&case.lists[0])?;
    if slips(Slip::NineteenBeforeFourteen) {
        check_room(&canonical(&sound), space)?;
    }
    check_gates(&sound)?;
    let list = canonical(&sound);
    check_room(&list, space)?;
    space.out_nodes[..list.nodes.len()].copy_from_slice(&list.nodes);
    space.out_pool[..list.pool.len()].copy_from_slice(&list.pool);
    Ok(vec![list.nodes.len() as u64, list.pool.len() as u64])
}

/// 19: an output too short, or a list above the limits.
fn check_room(list: &List, space: &Space) -> Result<(), Refusal> {
    let is_above = list.node_count() > MOST_NODES || list.pool.len() > MOST_POOL;
    let is_short = list.nodes.len() > space.out_nodes.len() || list.pool.len() > space.out_pool.len();
    if is_short || (is_above && !slips(Slip::NoLimitOnTheAnswer)) {
        return refuse(19);
    }
    Ok(())
}

/// The canonical list of a list that numbers 1 to 14 let pass.
pub fn canonical_of(list: &List) -> Option<List> {
    check_sizes(list).ok()?;
    let sound = sound(list).ok()?;
    check_gates(&sound).ok()?;
    Some(canonical(&sound))
}

/// How wide each node of a list past number 8 is; 0 where it has no answer.
pub fn widths(list: &List) -> Vec<u64> {
    let Ok(sound) = sound(list) else {
        return Vec::new();
    };
    let width = |place: usize| match sound.shapes.get(&place) {
        Some(Shape::Bit) => 1,
        Some(Shape::Bus(members)) => *members as u64,
        None => 0,
    };
    (0..sound.trees.len()).map(width).collect()
}

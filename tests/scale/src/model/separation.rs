//! Document 01, "Comparison and separation": the separation, and number 11.
use super::answers::{words, Answer, Answers};
use super::comparison::{variables, Found};
use super::evaluable::Sound;
use super::list::{refuse, Op, Refusal, Tree};
use crate::slips::{slips, Slip};
use std::rc::Rc;

const SEPARATE: u64 = 0;
pub const CROSSING: u64 = 1;

/// Number 11: any variable of the list counts, reached or not.
pub fn check_bounds(sound: &Sound, n: u64, marks: u64) -> Result<(), Refusal> {
    let counts = |tree: &Rc<Tree>| !slips(Slip::ReachedVariablesOnly) || sound.reach.contains_key(&tree.place);
    let is_out = |tree: &Rc<Tree>| matches!(tree.op, Op::Var(v) if u64::from(v) >= n) && counts(tree);
    if n > 30 || marks >> n != 0 || sound.trees.iter().any(is_out) {
        return refuse(11);
    }
    Ok(())
}

/// Judgement, index, the answer there and the answer with the run bits cleared. A variable that the root does not reach
/// changes no answer, so the lowest crossing has it at 0: only the others' bits are counted through.
pub fn separate(sound: &Sound, marks: u64) -> Found {
    let variables: Vec<u32> = variables(&sound.reach).into_iter().collect();
    for count in 0..1u64 << variables.len() {
        let index = spread(count, &variables);
        let (a, b) = (answer_at(sound, index), answer_at(sound, index & !marks));
        if !alike(&a, &b) {
            let ([s1, w1, v1], [s2, w2, v2]) = (words(&a), words(&b));
            return [CROSSING, index, s1, w1, v1, s2, w2, v2];
        }
    }
    [SEPARATE, 0, 0, 0, 0, 0, 0, 0]
}

/// An answer is a value or a named failure, and two failures differ.
fn alike(a: &Answer, b: &Answer) -> bool {
    a == b || (slips(Slip::FailuresAlike) && a.is_err() && b.is_err())
}

/// Bit j of the count at the j-th variable's bit. It keeps the order: the variables are sorted.
fn spread(count: u64, variables: &[u32]) -> u64 {
    let places = variables.iter().enumerate();
    places.fold(0, |index, (j, &variable)| index | (count >> j & 1) << variable)
}

/// Bit v drives variable v.
fn answer_at(sound: &Sound, index: u64) -> Answer {
    let driven = |variable: u32| Some(index >> variable & 1 == 1);
    Answers::new(sound.trees.len(), &driven).of(&sound.root)
}

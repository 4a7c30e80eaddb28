//! One case tried: the model's outcome, the call, and in what the two differ.
use crate::case::Case;
use crate::lent;
use crate::library::{perform, Seen};
use crate::model::calls::outcome;

pub fn try_case(case: &Case) -> Seen {
    let space = lent::space(case);
    let expected = outcome(case, &space);
    perform(case, &space, &expected)
}

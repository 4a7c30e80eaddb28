//! Slips that can be put into the model on purpose, one at a time, to show that a run finds each.
use std::sync::atomic::{AtomicUsize, Ordering};

#[derive(Clone, Copy, Debug, PartialEq, Eq)]
pub enum Slip {
    OneNodeLess = 1,
    SumWraps,
    TenBeforeTwo,
    WorkLeftPastAsked,
    VerifierNeedsARoot,
    GreatestCycles,
    AnyProgram,
    UnreachedVerified,
    OneBusIsBit,
    BusFirstFailure,
    AndSecondFailure,
    NorAbsorbsNothing,
    BothArms,
    NineteenBeforeTwelve,
    OutputClearedBehind,
    LayoutsOfBothFirst,
    ThirtyOneTried,
    SearchesPastFailure,
    WidthsDoNotCount,
    HighestVariableFirst,
    ReachedVariablesOnly,
    FailuresAlike,
    NineteenBeforeFourteen,
    NoLimitOnTheAnswer,
    StopsAtANegation,
    OtherHalf,
    KeepsIdleOperands,
    ListsFromTheRight,
    ProgramsListedAgain,
    ChildlessAtZero,
    LutFromTheLowEnd,
    RangeBeforeNone,
    SwapFromTheHighEnd,
}

/// Each slip's name for `--slip`, and what it gets wrong.
pub const SLIPS: [(Slip, &str, &str); 33] = [
    (Slip::OneNodeLess, "one_node_less", "4,096 nodes are refused with 2"),
    (Slip::SumWraps, "sum_wraps", "first + count wraps at 32 bits"),
    (Slip::TenBeforeTwo, "ten_before_two", "10 is asked before 1 and 2"),
    (Slip::WorkLeftPastAsked, "work_left_past_asked", "work space past what is asked is not cleared"),
    (Slip::VerifierNeedsARoot, "verifier_needs_a_root", "verifying an empty list is 7"),
    (Slip::GreatestCycles, "greatest_cycles", "an Arg counts the most Cycles over it, not the least"),
    (Slip::AnyProgram, "any_program", "a Lut's program may have rows that its operands don't"),
    (Slip::UnreachedVerified, "unreached_verified", "nodes that the root does not reach are verified"),
    (Slip::OneBusIsBit, "one_bus_is_bit", "a bus of one serves as a bit"),
    (Slip::BusFirstFailure, "bus_first_failure", "a Bus answers its first failure"),
    (Slip::AndSecondFailure, "and_second_failure", "of two failures And answers the second"),
    (Slip::NorAbsorbsNothing, "nor_absorbs_nothing", "all ones beside a failure don't absorb"),
    (Slip::BothArms, "both_arms", "a Mux looks at the arm that is not chosen"),
    (Slip::NineteenBeforeTwelve, "nineteen_before_twelve", "an evaluation asks 19 before 12"),
    (Slip::OutputClearedBehind, "output_cleared_behind", "the output behind the pairs is cleared"),
    (Slip::LayoutsOfBothFirst, "layouts_of_both_first", "3 to 5 of both lists come before 6 to 8 of the first"),
    (Slip::ThirtyOneTried, "thirty_one_tried", "31 variables are Equiv after no assignment"),
    (Slip::SearchesPastFailure, "searches_past_a_failure", "a comparison goes on behind a failure"),
    (Slip::WidthsDoNotCount, "widths_do_not_count", "values of two widths are equal"),
    (Slip::HighestVariableFirst, "highest_variable_first", "bit 0 drives the highest variable"),
    (Slip::ReachedVariablesOnly, "reached_variables_only", "11 looks at variables that are reached alone"),
    (Slip::FailuresAlike, "failures_alike", "two failures are no crossing"),
    (Slip::NineteenBeforeFourteen, "nineteen_before_fourteen", "the canonicaliser asks 19 before 14"),
    (Slip::NoLimitOnTheAnswer, "no_limit_on_the_answer", "a canonical list may be above the limits"),
    (Slip::StopsAtANegation, "stops_at_a_negation", "program 1 over a constant stays"),
    (Slip::OtherHalf, "other_half", "a constant operand keeps the other half of the rows"),
    (Slip::KeepsIdleOperands, "keeps_idle_operands", "an operand that no row depends on stays"),
    (Slip::ListsFromTheRight, "lists_from_the_right", "children are listed right to left"),
    (Slip::ProgramsListedAgain, "programs_listed_again", "a Program is listed for each Lut anew"),
    (Slip::ChildlessAtZero, "childless_at_zero", "an empty Bus's part begins at 0"),
    (Slip::LutFromTheLowEnd, "lut_from_the_low_end", "eval_lut's first input is the low row bit"),
    (Slip::RangeBeforeNone, "range_before_none", "remove_lsb_var asks the range of k below 2"),
    (Slip::SwapFromTheHighEnd, "swap_from_the_high_end", "swap_pos counts from the high end"),
];

static CHOSEN: AtomicUsize = AtomicUsize::new(0);

/// Chooses a slip for the rest of the run.
pub fn choose(name: &str) -> Result<(), String> {
    let found = SLIPS.iter().find(|(_, known, _)| *known == name);
    let (slip, _, _) = found.ok_or(format!("'{name}' is no slip: --slip list names them"))?;
    CHOSEN.store(*slip as usize, Ordering::Relaxed);
    Ok(())
}

/// Whether the model is to slip here.
pub fn slips(slip: Slip) -> bool {
    CHOSEN.load(Ordering::Relaxed) == slip as usize
}

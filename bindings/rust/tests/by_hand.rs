//! Calls that are written out by hand: every number that a call can answer with, slices of length 0, and document 01's
//! examples.
use panel::{
    canonicalize, compare, evaluate, separate, verify, work_for, Answer, Check, Comparison, Error, Failure, Judgement,
    List, NodeAnswer, Number, Refusal, Separation,
};

const EMPTY: List = List { nodes: &[], pool: &[] };
const VARIABLE: List = List { nodes: &[3, 0, 0], pool: &[] };
const DONT_CARE: List = List { nodes: &[2, 0, 0], pool: &[] };
const AND: List = List { nodes: &[3, 0, 0, 3, 1, 0, 6, 0, 2], pool: &[0, 1] };

fn refused(number: Number, node: u64) -> Error {
    Error::Refused(Refusal { number, node })
}

fn work(lists: &[List]) -> Vec<u64> {
    vec![7; work_for(lists)]
}

fn verified(list: List) -> Result<(), Error> {
    verify(list, &mut work(&[list]))
}

fn root(list: List, bytes: &[u8]) -> Result<NodeAnswer, Error> {
    let mut out = vec![7; list.nodes.len()];
    evaluate(list, bytes, &mut work(&[list]), &mut out).map(|evaluation| evaluation.root)
}

fn compared(first: List, second: List) -> Result<Comparison, Error> {
    compare(first, second, &mut work(&[first, second]))
}

fn separated(list: List, n: u32, marks: u32) -> Result<Separation, Error> {
    separate(list, n, marks, &mut work(&[list]))
}

const NOTHING: Answer = Answer::Value { width: 0, value: 0 };

fn value(value: u64) -> Answer {
    Answer::Value { width: 1, value }
}

fn equiv() -> Comparison {
    Comparison { verdict: Check::Equiv, index: 0, first: NOTHING, second: NOTHING }
}

fn apart() -> Separation {
    Separation { judgement: Judgement::Separate, index: 0, run: NOTHING, cleared: NOTHING }
}

fn crossing(index: u64, run: Answer, cleared: Answer) -> Separation {
    Separation { judgement: Judgement::Crossing, index, run, cleared }
}

// ---- refusals

/// A list, what verifying it answers, and what every other call does.
fn faulty_lists() -> Vec<(List<'static>, Result<(), Error>, Error)> {
    let same = |list, number, node| (list, Err(refused(number, node)), refused(number, node));
    vec![
        same(List { nodes: &[3], pool: &[] }, Number::NotAligned, 0),
        same(List { nodes: &[3, 0, 0, 17, 0, 0], pool: &[] }, Number::UnknownKind, 1),
        same(List { nodes: &[0, 2, 0], pool: &[] }, Number::BadLayout, 0),
        same(List { nodes: &[3, 0, 0, 8, 0, 1], pool: &[1] }, Number::BadChild, 1),
        same(List { nodes: &[3, 0, 0, 9, 0, 0], pool: &[] }, Number::NotVerified, 1),
        (EMPTY, Ok(()), refused(Number::NoRoot, 0)),
        (List { nodes: &[1, 8, 0], pool: &[] }, Ok(()), refused(Number::NotEvaluable, 0)),
    ]
}

#[test]
fn a_faulty_list_is_refused_by_every_call() {
    for (list, verifying, other) in faulty_lists() {
        assert_eq!(verified(list), verifying, "{list:?}");
        assert_eq!(root(list, &[]), Err(other), "{list:?}");
        assert_eq!(compared(list, VARIABLE), Err(other), "{list:?}");
        assert_eq!(compared(VARIABLE, list), Err(other), "{list:?}");
        assert_eq!(separated(list, 30, 1), Err(other), "{list:?}");
        // every other number comes before 11
        assert_eq!(separated(list, 31, 0), Err(other), "{list:?}");
        // and before 19
        assert_eq!(canonicalize(list, &mut work(&[list]), &mut [], &mut []), Err(other), "{list:?}");
    }
}

#[test]
fn a_list_over_the_limits_is_refused() {
    let (nodes, pool) = (vec![0; 3 * 4097], vec![0; 16385]);
    for list in [List { nodes: &nodes, pool: &[] }, List { nodes: &[], pool: &pool }] {
        assert_eq!(verified(list), Err(refused(Number::OverLimit, 0)));
        assert_eq!(root(list, &[]), Err(refused(Number::OverLimit, 0)));
        assert_eq!(compared(VARIABLE, list), Err(refused(Number::OverLimit, 0)));
        assert_eq!(separated(list, 31, 0), Err(refused(Number::OverLimit, 0)));
        assert_eq!(canonicalize(list, &mut [], &mut [], &mut []), Err(refused(Number::OverLimit, 0)));
    }
    assert_eq!(verified(List { nodes: &nodes[3..], pool: &pool[1..] }), Ok(()));
}

#[test]
fn too_little_work_space_is_refused_and_left_alone() {
    let mut short = vec![7; work_for(&[AND]) - 1];
    assert_eq!(verify(AND, &mut short), Err(refused(Number::LittleWork, 0)));
    assert_eq!(evaluate(AND, &[], &mut short, &mut [0; 6]), Err(refused(Number::LittleWork, 0)));
    assert_eq!(compare(AND, EMPTY, &mut short), Err(refused(Number::LittleWork, 0)));
    assert_eq!(separate(AND, 31, 0, &mut short), Err(refused(Number::LittleWork, 0)));
    assert_eq!(canonicalize(AND, &mut short, &mut [0; 12], &mut [0; 3]), Err(refused(Number::LittleWork, 0)));
    assert!(short.iter().all(|word| *word == 7));
}

#[test]
fn bad_bytes_are_refused() {
    assert_eq!(root(VARIABLE, &[1, 3]), Err(refused(Number::BadAssignment, 0)));
    assert_eq!(root(VARIABLE, &[0; 257]), Err(refused(Number::BadAssignment, 0)));
    assert_eq!(root(VARIABLE, &[1; 256]), Ok(NodeAnswer::Value(1)));
}

#[test]
fn too_little_output_is_refused_and_left_alone() {
    let mut out = [7; 5];
    assert_eq!(evaluate(AND, &[], &mut work(&[AND]), &mut out), Err(refused(Number::ShortOutput, 0)));
    assert_eq!(out, [7; 5]);
}

/// The Xor of so many variables: their nodes, then a Xor of each but the first with what is below.
fn xor_of(variables: u32) -> (Vec<u32>, Vec<u32>) {
    let leaves = (0..variables).flat_map(|variable| [3, variable, 0]);
    let gates = (1..variables).flat_map(|gate| [7, 2 * (gate - 1), 2]);
    let below = |gate| if gate == 1 { 0 } else { variables + gate - 2 };
    let pool = (1..variables).flat_map(|gate| [gate, below(gate)]).collect();
    (leaves.chain(gates).collect(), pool)
}

#[test]
fn over_thirty_variables_are_refused_unless_the_trees_are_equal() {
    let low = List { nodes: &[0, 0, 0], pool: &[] };
    let (nodes, pool) = xor_of(31);
    let more = List { nodes: &nodes, pool: &pool };
    assert_eq!(compared(more, low), Err(refused(Number::ManyInputs, 0)));
    assert_eq!(compared(more, more), Ok(equiv()));
    let (nodes, pool) = xor_of(30);
    let found = Comparison { verdict: Check::NotEquiv, index: 1, first: value(1), second: value(0) };
    assert_eq!(compared(List { nodes: &nodes, pool: &pool }, low), Ok(found));
}

#[test]
fn variables_and_marks_out_of_bounds_are_refused() {
    let beyond = Err(refused(Number::OutOfBounds, 0));
    let low = List { nodes: &[0, 0, 0], pool: &[] };
    for n in [31, 32, 256, 1 << 31, u32::MAX] {
        assert_eq!(separated(low, n, 0), beyond, "{n}");
    }
    for (n, marks) in [(0, 1), (3, 8), (30, 1 << 30), (30, 1 << 31), (30, u32::MAX)] {
        assert_eq!(separated(low, n, marks), beyond, "{n} {marks}");
    }
    for (n, marks) in [(0, 0), (3, 7), (30, (1 << 30) - 1)] {
        assert_eq!(separated(low, n, marks), Ok(apart()), "{n} {marks}");
    }
    // v5, as the root and where the root does not reach it
    let (root, unreached) = (List { nodes: &[3, 5, 0], pool: &[] }, List { nodes: &[3, 5, 0, 0, 1, 0], pool: &[] });
    assert_eq!(separated(root, 5, 0), beyond);
    assert_eq!(separated(unreached, 5, 0), beyond);
    assert_eq!(separated(root, 6, 0), Ok(apart()));
    assert_eq!(separated(unreached, 6, 63), Ok(apart()));
}

#[test]
fn what_is_out_of_bounds_leaves_work_space_cleared() {
    let mut work = work(&[AND]);
    assert_eq!(separate(AND, 31, 0, &mut work), Err(refused(Number::OutOfBounds, 0)));
    assert!(work.iter().all(|word| *word == 0));
}

// ---- answers

#[test]
fn empty_slices_can_be_lent() {
    assert_eq!(verify(EMPTY, &mut []), Ok(()));
    assert_eq!(evaluate(EMPTY, &[], &mut [], &mut []), Err(refused(Number::NoRoot, 0)));
    assert_eq!(compare(EMPTY, EMPTY, &mut []), Err(refused(Number::NoRoot, 0)));
    assert_eq!(separate(EMPTY, 0, 0, &mut []), Err(refused(Number::NoRoot, 0)));
    assert_eq!(canonicalize(EMPTY, &mut [], &mut [], &mut []), Err(refused(Number::NoRoot, 0)));
    assert_eq!(panel::eval_lut(1, &[]), Ok(panel::LutBit::Bit(true)));
    assert_eq!(panel::eval_lut_bv(2, &[]), Ok(panel::LutBit::Bit(false)));
}

#[test]
fn roots_answer() {
    let bus = List { nodes: &[3, 0, 0, 3, 1, 0, 10, 0, 2], pool: &[0, 1] };
    let absorbed = List { nodes: &[0, 0, 0, 2, 0, 0, 6, 0, 2], pool: &[0, 1] };
    assert_eq!(root(bus, &[1, 0]), Ok(NodeAnswer::Value(2)));
    assert_eq!(root(bus, &[1]), Ok(NodeAnswer::Failed(Failure::Undriven)));
    assert_eq!(root(absorbed, &[]), Ok(NodeAnswer::Value(0)));
    assert_eq!(root(DONT_CARE, &[]), Ok(NodeAnswer::Failed(Failure::DontCare)));
}

#[test]
fn every_node_answers_and_the_output_behind_is_left_alone() {
    let list = List { nodes: &[3, 7, 0, 0, 1, 0], pool: &[] };
    let mut out = [7; 6];
    let mut work = work(&[list]);
    let evaluation = evaluate(list, &[], &mut work, &mut out).unwrap();
    let answers: Vec<_> = evaluation.answers().collect();
    assert_eq!(answers, [Ok(NodeAnswer::Unanswered), Ok(NodeAnswer::Value(1))]);
    assert_eq!(out, [5, 0, 0, 1, 7, 7]);
    assert!(work.iter().all(|word| *word == 0));
}

#[test]
fn lists_are_compared() {
    let found = Comparison { verdict: Check::NotEquiv, index: 1, first: value(0), second: value(1) };
    assert_eq!(compared(AND, VARIABLE), Ok(found));
    let failed = Answer::Failed(Failure::DontCare);
    let undecided = Comparison { verdict: Check::Inconclusive, index: 0, first: value(0), second: failed };
    assert_eq!(compared(VARIABLE, DONT_CARE), Ok(undecided));
    assert_eq!(compared(DONT_CARE, DONT_CARE), Ok(equiv()));
}

/// Document 01's examples, of two variables v1 marked; and other marks and n for the first.
#[test]
fn lists_are_separated() {
    let high_and_low = crossing(3, value(1), value(0));
    for marks in [1, 2, 3] {
        assert_eq!(separated(AND, 2, marks), Ok(high_and_low), "{marks}");
    }
    assert_eq!(separated(AND, 2, 0), Ok(apart()));
    assert_eq!(separated(AND, 30, (1 << 30) - 1), Ok(high_and_low));
    assert_eq!(separated(AND, 30, (1 << 30) - 4), Ok(apart()));
    let chosen = List { nodes: &[3, 0, 0, 3, 1, 0, 2, 0, 0, 5, 0, 3], pool: &[1, 2, 0] };
    assert_eq!(separated(chosen, 2, 2), Ok(crossing(2, Answer::Failed(Failure::DontCare), value(0))));
    let idle = List { nodes: &[3, 0, 0, 3, 1, 0, 7, 0, 2, 6, 2, 2], pool: &[1, 1, 0, 2] };
    assert_eq!(separated(idle, 2, 2), Ok(apart()));
}

#[test]
fn separations_tell_failures_and_widths() {
    // Mux(v0, DC, register), and Bus(v0, v1), of which v1 is bit 0
    let failing = List { nodes: &[3, 0, 0, 2, 0, 0, 11, 0, 4, 5, 4, 3], pool: &[0, 0, 0, 0, 0, 1, 2] };
    let (one, other) = (Answer::Failed(Failure::DontCare), Answer::Failed(Failure::Register));
    assert_eq!(separated(failing, 1, 1), Ok(crossing(1, one, other)));
    let bus = List { nodes: &[3, 0, 0, 3, 1, 0, 10, 0, 2], pool: &[0, 1] };
    let wide = |value| Answer::Value { width: 2, value };
    assert_eq!(separated(bus, 2, 2), Ok(crossing(2, wide(1), wide(0))));
    assert_eq!(separated(bus, 2, 3), Ok(crossing(1, wide(2), wide(0))));
}

#[test]
fn thirty_variables_are_separated() {
    let (nodes, pool) = xor_of(30);
    let all = List { nodes: &nodes, pool: &pool };
    assert_eq!(separated(all, 30, 1 << 29 | 1), Ok(crossing(1, value(1), value(0))));
    assert_eq!(separated(all, 30, 1 << 29 | 1 << 9), Ok(crossing(512, value(1), value(0))));
    let last = List { nodes: &[3, 29, 0], pool: &[] };
    assert_eq!(separated(last, 30, 1 << 29), Ok(crossing(1 << 29, value(1), value(0))));
}

#[test]
fn table_routines_answer() {
    use panel::{BitVector, Cofactors, LutBit, Removed, TableProgram};
    assert_eq!(panel::eval_lut(16, &[1, 0, 0]), Ok(LutBit::Bit(true)));
    assert_eq!(panel::eval_lut_bv(2, &[1, 0, 0]), Ok(LutBit::Bit(true)));
    assert_eq!(panel::to_bitvec(5, 3), Ok(BitVector::Bits { width: 3, value: 5 }));
    assert_eq!(panel::remove_lsb_var(195, 3), Ok(Removed::Smaller(9)));
    assert_eq!(panel::remove_lsb_var(8, 2), Ok(Removed::Nothing));
    assert_eq!(panel::eval_lut_const_input(202, 2, 1), Ok(TableProgram::Program(12)));
    assert_eq!(panel::cofactors_in_msb(202, 3), Ok(Cofactors::Pair { high: 12, low: 10 }));
    assert_eq!(panel::swap_pos(202, 3, 0), Ok(TableProgram::Program(172)));
}

#[test]
fn table_routines_refuse() {
    use panel::{BitVector, Cofactors, LutBit, Removed, TableProgram};
    assert_eq!(panel::eval_lut(1, &[0; 7]), Ok(LutBit::OutOfRange));
    assert_eq!(panel::eval_lut_bv(1, &[2]), Ok(LutBit::OutOfRange));
    assert_eq!(panel::to_bitvec(0, 65), Ok(BitVector::OutOfRange));
    assert_eq!(panel::remove_lsb_var(0, 7), Ok(Removed::OutOfRange));
    for v in [2, 1 << 32, u64::MAX] {
        assert_eq!(panel::eval_lut_const_input(202, 2, v), Ok(TableProgram::OutOfRange));
    }
    assert_eq!(panel::cofactors_in_msb(0, 1), Ok(Cofactors::OutOfRange));
    assert_eq!(panel::swap_pos(202, 3, u64::MAX), Ok(TableProgram::OutOfRange));
}

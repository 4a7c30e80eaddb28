//! What a call handed back, as the words that the cases are recorded in.
use panel::{
    Answer, BitVector, Check, Cofactors, Comparison, Error, Failure, Foreign, Judgement, LutBit, NodeAnswer, Refusal,
    Removed, Separation, TableProgram,
};

const OUT_OF_RANGE: [u64; 3] = [13, 0, 0];

/// Number and node; a foreign word is a fault of its own.
pub fn error(error: Error) -> Result<[u64; 2], Foreign> {
    match error {
        Error::Refused(Refusal { number, node }) => Ok([number.word(), node]),
        Error::Foreign(foreign) => Err(foreign),
    }
}

pub fn done<T>(result: &Result<T, Error>) -> Result<[u64; 2], Foreign> {
    match result {
        Ok(_) => Ok([0, 0]),
        Err(why) => error(*why),
    }
}

fn failure(failure: Failure) -> u64 {
    match failure {
        Failure::Undriven => 1,
        Failure::DontCare => 2,
        Failure::Register => 3,
        Failure::Argument => 4,
    }
}

fn answer(answer: Answer) -> [u64; 3] {
    match answer {
        Answer::Value { width, value } => [0, width, value],
        Answer::Failed(why) => [failure(why), 0, 0],
    }
}

pub fn node_answer(answer: NodeAnswer) -> [u64; 2] {
    match answer {
        NodeAnswer::Value(value) => [0, value],
        NodeAnswer::Failed(why) => [failure(why), 0],
        NodeAnswer::Unanswered => [5, 0],
    }
}

fn verdict(check: Check) -> u64 {
    match check {
        Check::Equiv => 0,
        Check::NotEquiv => 1,
        Check::Inconclusive => 2,
    }
}

/// A refusal's verdict is Inconclusive, and all behind it 0.
pub fn comparison(result: Result<Comparison, Error>) -> Result<[u64; 10], Foreign> {
    let [number, node] = done(&result)?;
    let Ok(found) = result else {
        return Ok([number, node, 2, 0, 0, 0, 0, 0, 0, 0]);
    };
    let [state1, width1, value1] = answer(found.first);
    let [state2, width2, value2] = answer(found.second);
    Ok([number, node, verdict(found.verdict), found.index, state1, width1, value1, state2, width2, value2])
}

fn judgement(judgement: Judgement) -> u64 {
    match judgement {
        Judgement::Separate => 0,
        Judgement::Crossing => 1,
    }
}

/// A refusal's judgement is Crossing, and all behind it 0.
pub fn separation(result: Result<Separation, Error>) -> Result<[u64; 10], Foreign> {
    let [number, node] = done(&result)?;
    let Ok(found) = result else {
        return Ok([number, node, 1, 0, 0, 0, 0, 0, 0, 0]);
    };
    let [state1, width1, value1] = answer(found.run);
    let [state2, width2, value2] = answer(found.cleared);
    Ok([number, node, judgement(found.judgement), found.index, state1, width1, value1, state2, width2, value2])
}

pub fn lut_bit(answer: LutBit) -> [u64; 3] {
    match answer {
        LutBit::Bit(bit) => [0, u64::from(bit), 0],
        LutBit::OutOfRange => OUT_OF_RANGE,
    }
}

pub fn bit_vector(answer: BitVector) -> [u64; 3] {
    match answer {
        BitVector::Bits { width, value } => [0, width, value],
        BitVector::OutOfRange => OUT_OF_RANGE,
    }
}

pub fn removed(answer: Removed) -> [u64; 3] {
    match answer {
        Removed::Smaller(program) => [0, 1, program],
        Removed::Nothing => [0, 0, 0],
        Removed::OutOfRange => OUT_OF_RANGE,
    }
}

pub fn table_program(answer: TableProgram) -> [u64; 3] {
    match answer {
        TableProgram::Program(program) => [0, program, 0],
        TableProgram::OutOfRange => OUT_OF_RANGE,
    }
}

pub fn cofactors(answer: Cofactors) -> [u64; 3] {
    match answer {
        Cofactors::Pair { high, low } => [0, high, low],
        Cofactors::OutOfRange => OUT_OF_RANGE,
    }
}

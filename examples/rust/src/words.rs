//! What was found, in plain words.
use crate::networks::NAMES;
use panel::{Answer, Check, Comparison, Error, Failure, Separation};

pub fn of_error(error: Error) -> String {
    match error {
        Error::Refused(refusal) => format!("refused with number {} at node {}", refusal.number.word(), refusal.node),
        Error::Foreign(foreign) => foreign.to_string(),
    }
}

/// Bit v of the index drives variable v.
fn of_assignment(index: u64) -> String {
    let high: Vec<&str> = (0..NAMES.len()).filter(|v| index >> v & 1 == 1).map(|v| NAMES[v]).collect();
    match high.len() {
        0 => format!("assignment {index} (all low)"),
        _ => format!("assignment {index} ({} high)", high.join(", ")),
    }
}

fn of_answer(answer: Answer) -> String {
    match answer {
        Answer::Value { value, .. } => value.to_string(),
        Answer::Failed(Failure::Undriven) => "no value (undriven)".into(),
        Answer::Failed(Failure::DontCare) => "no value (don't care)".into(),
        Answer::Failed(Failure::Register) => "no value (register)".into(),
        Answer::Failed(Failure::Argument) => "no value (argument)".into(),
    }
}

/// Each of the four signals stands below both drawings' roots, so bit v of the index drives variable v here too.
pub fn of_difference(found: &Comparison) -> String {
    let what = if found.verdict == Check::NotEquiv { "they differ" } else { "undecided" };
    let (first, second) = (of_answer(found.first), of_answer(found.second));
    format!("{what} at {}: the drawing answers {first}, the table {second}", of_assignment(found.index))
}

pub fn of_crossing(found: &Separation) -> String {
    let (run, cleared) = (of_answer(found.run), of_answer(found.cleared));
    let where_ = of_assignment(found.index);
    format!("the run signals cross at {where_}: the answer is {run}, with the run signals low {cleared}")
}

pub fn of_words(words: &[u32]) -> String {
    words.iter().map(|word| format!(" {word}")).collect()
}

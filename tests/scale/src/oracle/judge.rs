//! What the Rust's answer says of the library's.
use super::questions::Question;
use crate::case::{Call, Case};
use crate::model::answers::{Answer, Answers};
use crate::model::calls::sound;
use crate::model::comparison::variables;
use crate::model::evaluable::Sound;
use crate::model::list::List;

#[derive(Clone, Copy, Debug, PartialEq, Eq, PartialOrd, Ord)]
pub enum Judged {
    Alike,
    Differs,
    Panics,
    /// eval_lut_const_input at its highest operand, which the original never answers.
    PanicsAtMsb5,
    /// The original's answer would be the stand-in's and not its own.
    RestsOnStandIn,
    Late,
    /// The original ran out of stack or memory.
    Aborts,
    /// The oracle does not take the case.
    NotTaken,
    /// A canonical list of other words and of the given list's values, wherever both have one.
    SameValues,
    AnotherValue,
    /// A canonical list that document 01 refuses.
    NoSoundList,
}

/// Assignments of so many variables are tried on a canonical list of other words.
const MOST_VARIABLES: usize = 12;

pub fn judge(question: &Question, answer: &str) -> Judged {
    match answer.split_whitespace().next() {
        Some("panic" | "error") => return judge_panic(&question.case, answer),
        Some("late") => return Judged::Late,
        Some("abort") => return Judged::Aborts,
        Some("malformed") => return Judged::NotTaken,
        _ => {}
    }
    let words: Option<Vec<u64>> = answer.split_whitespace().map(|word| word.parse().ok()).collect();
    match words {
        None => Judged::NotTaken,
        Some(words) if words == question.ours => Judged::Alike,
        Some(words) if question.command == "canonicalise" => judge_list(&question.case.lists[0], &words),
        Some(_) => Judged::Differs,
    }
}

fn judge_panic(case: &Case, answer: &str) -> Judged {
    if answer.starts_with("panic rests on the stand-in") {
        return Judged::RestsOnStandIn;
    }
    if case.call == Call::EvalLutConstInput && case.numbers[1] == 5 {
        return Judged::PanicsAtMsb5;
    }
    Judged::Panics
}

// ---- a canonical list of other words

fn judge_list(given: &List, words: &[u64]) -> Judged {
    let Some((given, rusts)) = sound(given).ok().zip(list_of(words).and_then(|list| sound(&list).ok())) else {
        return Judged::NoSoundList;
    };
    let mut all = variables(&given.reach);
    all.extend(variables(&rusts.reach));
    let all: Vec<u32> = all.into_iter().collect();
    let tried = 1u64 << all.len().min(MOST_VARIABLES);
    let differs = (0..tried).any(|index| {
        let pair = (answer_at(&given, &all, index), answer_at(&rusts, &all, index));
        matches!(pair, (Ok(ours), Ok(theirs)) if ours != theirs)
    });
    if differs {
        Judged::AnotherValue
    } else {
        Judged::SameValues
    }
}

fn list_of(words: &[u64]) -> Option<List> {
    let (&nodes, &entries) = words.first().zip(words.get(1))?;
    let rest: Vec<u32> = words[2..].iter().map(|&word| word as u32).collect();
    let (nodes, entries) = (nodes as usize, entries as usize);
    (rest.len() == nodes + entries).then(|| List { nodes: rest[..nodes].to_vec(), pool: rest[nodes..].to_vec() })
}

fn answer_at(sound: &Sound, variables: &[u32], index: u64) -> Answer {
    let driven = |variable: u32| {
        let bit = variables.iter().position(|&v| v == variable)?;
        Some(bit < 64 && index >> bit & 1 == 1)
    };
    Answers::new(sound.trees.len(), &driven).of(&sound.root)
}

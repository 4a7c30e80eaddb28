//! The calls on lists: a case's words in, the original's answer out.

use crate::answers::{Answer, Assignment, evaluated};
use crate::lists::{Malformed, Words, name_of, number_of, reached, words_of};
use crate::tables;
use crate::turn::Turn;
use egg::RecExpr;
use original::check::Check;
use original::driver::Canonical;
use original::lut::LutLang;

type Told = Result<String, Malformed>;

#[derive(Debug, Clone, Copy, PartialEq, Eq)]
pub enum Call {
    Verify,
    Evaluate,
    Compare,
    Canonicalise,
    Separate,
    Tables,
}

const CALLS: [(&str, Call); 6] = [
    ("verify", Call::Verify),
    ("evaluate", Call::Evaluate),
    ("compare", Call::Compare),
    ("canonicalise", Call::Canonicalise),
    ("separate", Call::Separate),
    ("tables", Call::Tables),
];

impl Call {
    pub fn named(name: &str) -> Option<Self> {
        CALLS.iter().find(|(word, _)| *word == name).map(|(_, call)| *call)
    }

    pub fn name(self) -> &'static str {
        CALLS.iter().find(|(_, call)| *call == self).map_or("", |(word, _)| word)
    }

    pub fn answer(self, line: &str, turn: &mut Turn) -> Told {
        if self == Call::Tables {
            return tables::answer(line, turn);
        }
        let words: Result<Vec<u64>, _> = line.split_ascii_whitespace().map(str::parse).collect();
        let words = words.map_err(|_| Malformed)?;
        let words = Words::new(&words);
        match self {
            Call::Verify => verify(words, turn),
            Call::Evaluate => evaluate(words, turn),
            Call::Compare => compare(words, turn),
            Call::Canonicalise => canonicalise(words, turn),
            Call::Separate => separate(words, turn),
            Call::Tables => Err(Malformed),
        }
    }
}

fn one_list(mut words: Words) -> Result<Vec<LutLang>, Malformed> {
    let (node_words, entries) = (words.next()?, words.next()?);
    let nodes = words.list(node_words, entries)?;
    words.end()?;
    Ok(nodes)
}

fn verify(words: Words, turn: &mut Turn) -> Told {
    let expr = RecExpr::from(one_list(words)?);
    let verified = turn.run(|| &expr, LutLang::verify_expr);
    Ok(u64::from(verified.is_ok()).to_string())
}

fn canonicalise(words: Words, turn: &mut Turn) -> Told {
    let expr = RecExpr::from(one_list(words)?);
    let list = turn.run(|| expr.clone(), LutLang::canonicalize_expr);
    let (nodes, pool) = words_of(&list);
    let counts = [nodes.len() as u64, pool.len() as u64];
    Ok(joined(counts.iter().chain(&nodes).chain(&pool)))
}

fn joined<'a>(words: impl Iterator<Item = &'a u64>) -> String {
    words.map(u64::to_string).collect::<Vec<_>>().join(" ")
}

// ---- evaluation

fn evaluate(mut words: Words, turn: &mut Turn) -> Told {
    let (node_words, entries, count) = (words.next()?, words.next()?, words.next()?);
    let nodes = words.list(node_words, entries)?;
    let bytes = words.take(count)?;
    words.end()?;
    let driven = driven_by(bytes)?;
    if nodes.is_empty() {
        // Document 01 refuses this; the original has no root to look at.
        return Ok(evaluated(&RecExpr::default(), &driven).told());
    }
    let all = RecExpr::from(nodes.clone());
    if !matches!(nodes.last(), Some(LutLang::Program(_))) {
        turn.run(|| (&all, &driven), |(expr, driven)| LutLang::eval(expr, driven).is_ok());
    }
    Ok(node_by_node(nodes, &driven))
}

/// What is not in the map is not driven; so is the byte 2.
fn driven_by(bytes: &[u64]) -> Result<Assignment, Malformed> {
    if bytes.iter().any(|byte| *byte > 2) {
        return Err(Malformed);
    }
    let driven = bytes.iter().enumerate().filter(|(_, byte)| **byte < 2).take_while(|(variable, _)| *variable < 256);
    Ok(driven.map(|(variable, byte)| (name_of(variable).to_string(), *byte == 1)).collect())
}

/// Each node as the root of the list cut behind it.
fn node_by_node(nodes: Vec<LutLang>, driven: &Assignment) -> String {
    let reached = reached(&nodes);
    let mut expr = RecExpr::default();
    let mut told = Vec::new();
    for (node, reached) in nodes.into_iter().zip(reached) {
        let answers = reached && !matches!(node, LutLang::Program(_));
        expr.add(node);
        told.push(if answers { evaluated(&expr, driven).told() } else { "5 0 0".to_string() });
    }
    told.join(" ")
}

// ---- comparison

fn compare(mut words: Words, turn: &mut Turn) -> Told {
    let counts = words.take(4)?;
    let first = words.list(counts[0], counts[1])?;
    let second = words.list(counts[2], counts[3])?;
    words.end()?;
    let variables = variables_below(&first);
    let (first, second) = (RecExpr::from(first), RecExpr::from(second));
    let verdict = turn.run(|| (&first, &second), |(first, second)| LutLang::func_equiv(first, second));
    let number = match verdict {
        Check::Equiv => 0,
        Check::NotEquiv => 1,
        Check::Inconclusive => 2,
    };
    let found = if verdict.is_equiv() { None } else { deciding(&first, &second, &variables, turn) };
    Ok(found.map_or(format!("{number} 0 0 0 0 0 0 0"), |(index, answers)| told(number, index, &answers)))
}

fn told(outcome: u64, index: u64, answers: &[Answer; 2]) -> String {
    format!("{outcome} {index} {} {}", answers[0].told(), answers[1].told())
}

/// The variables below the root in rising order. The original's own `get_input_set` is private; its sorted names are
/// these, since a name has three digits.
fn variables_below(nodes: &[LutLang]) -> Vec<usize> {
    let reached = reached(nodes);
    let names = nodes.iter().zip(reached).filter_map(|(node, reached)| match node {
        LutLang::Var(name) if reached => Some(number_of(*name)),
        _ => None,
    });
    let mut variables: Vec<usize> = names.collect();
    variables.sort_unstable();
    variables.dedup();
    variables
}

fn drive(driven: &mut Assignment, variables: &[usize], index: u64) {
    for (place, variable) in variables.iter().enumerate() {
        let bit = index.checked_shr(place as u32).unwrap_or(0) & 1 == 1;
        match driven.get_mut(name_of(*variable)) {
            Some(value) => *value = bit,
            None => {
                driven.insert(name_of(*variable).to_string(), bit);
            }
        }
    }
}

/// The lowest assignment at which the two do not have one equal value, found by the original's `eval`; none where the
/// time runs short.
fn deciding(
    first: &RecExpr<LutLang>,
    second: &RecExpr<LutLang>,
    variables: &[usize],
    turn: &Turn,
) -> Option<(u64, [Answer; 2])> {
    let end = 1u64.checked_shl(variables.len() as u32).unwrap_or(u64::MAX);
    let mut driven = Assignment::new();
    for index in 0..end {
        drive(&mut driven, variables, index);
        let answers = [evaluated(first, &driven), evaluated(second, &driven)];
        if answers[0] != answers[1] || matches!(answers[0], Answer::Failure(_)) {
            return Some((index, answers));
        }
        if turn.is_ending() {
            return None;
        }
    }
    None
}

// ---- separation: document 01's definition over the original's `eval`; the original has no such judgement

fn separate(mut words: Words, turn: &mut Turn) -> Told {
    let header = words.take(4)?;
    let nodes = words.list(header[0], header[1])?;
    words.end()?;
    let (n, marks) = (header[2], header[3]);
    let variables = nodes.iter().filter_map(|node| match node {
        LutLang::Var(name) => Some(number_of(*name) as u64),
        _ => None,
    });
    // number 11, which is ours alone
    if n > 30 || marks >> n != 0 || variables.into_iter().any(|variable| variable >= n) {
        return Err(Malformed);
    }
    let expr = RecExpr::from(nodes);
    let crossing = turn.run(|| &expr, |expr| lowest_crossing(expr, n, marks));
    Ok(crossing.map_or("0 0 0 0 0 0 0 0".to_string(), |(index, answers)| told(1, index, &answers)))
}

fn lowest_crossing(expr: &RecExpr<LutLang>, n: u64, marks: u64) -> Option<(u64, [Answer; 2])> {
    let variables: Vec<usize> = (0..n as usize).collect();
    let mut driven = Assignment::new();
    let mut answer_at = |index| {
        drive(&mut driven, &variables, index);
        evaluated(expr, &driven)
    };
    (0..1u64 << n).find_map(|index| {
        let answers = [answer_at(index), answer_at(index & !marks)];
        (answers[0] != answers[1]).then_some((index, answers))
    })
}

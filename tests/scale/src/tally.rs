//! What was counted: how often each call answered what, and whether all that a call can answer was answered.
use crate::case::{Call, Case, CALLS};
use crate::library::Seen;
use std::collections::BTreeMap;

/// Something that a call answered.
#[derive(Clone, Copy, Debug, PartialEq, Eq, PartialOrd, Ord)]
pub enum Answered {
    Number(u64),
    /// A verdict of a comparison, or a judgement of a separation.
    Found(u64),
    /// The state of a node, of the first root or of the one answer of a crossing.
    State(u64),
    /// The state of the second root, or of the answer with the run bits cleared.
    OtherState(u64),
    /// remove_lsb_var: whether there is a program.
    Left(u64),
}

#[derive(Default)]
pub struct Tally {
    calls: BTreeMap<Call, u64>,
    differ: BTreeMap<Call, u64>,
    answered: BTreeMap<(Call, Answered), u64>,
    /// The most nodes, entries, and lent words of work space.
    longest: BTreeMap<Call, [usize; 3]>,
}

impl Tally {
    pub fn count(&mut self, case: &Case, seen: &Seen) {
        *self.calls.entry(case.call).or_default() += 1;
        *self.differ.entry(case.call).or_default() += u64::from(!seen.faults.is_empty());
        for answered in answered(case.call, seen) {
            *self.answered.entry((case.call, answered)).or_default() += 1;
        }
        let longest = self.longest.entry(case.call).or_default();
        let most = |length: fn(&Case) -> usize, place: usize| longest[place].max(length(case));
        let lengths = [
            most(|case| case.brought().iter().map(|list| list.node_count()).max().unwrap_or(0), 0),
            most(|case| case.brought().iter().map(|list| list.pool.len()).max().unwrap_or(0), 1),
            most(|case| case.work, 2),
        ];
        *longest = lengths;
    }

    pub fn join(&mut self, other: Tally) {
        add_all(&mut self.calls, other.calls);
        add_all(&mut self.differ, other.differ);
        add_all(&mut self.answered, other.answered);
        for (call, lengths) in other.longest {
            let longest = self.longest.entry(call).or_default();
            for (most, length) in longest.iter_mut().zip(lengths) {
                *most = length.max(*most);
            }
        }
    }

    pub fn total(&self) -> u64 {
        self.calls.values().sum()
    }

    pub fn differing(&self) -> u64 {
        self.differ.values().sum()
    }

    /// What a call that was asked for can answer, and never did.
    pub fn missing(&self, is_asked: impl Fn(Call) -> bool) -> Vec<String> {
        let asked = CALLS.into_iter().filter(|&call| is_asked(call));
        let expected = asked.flat_map(|call| can_answer(call).into_iter().map(move |answered| (call, answered)));
        let missing = expected.filter(|key| !self.answered.contains_key(key));
        missing.map(|(call, answered)| format!("{} never answered {answered:?}", call.name())).collect()
    }

    /// A block of lines for each call.
    pub fn table(&self) -> String {
        let block = |(call, calls): (&Call, &u64)| {
            let [nodes, entries, work] = self.longest[call];
            let lengths = match call.lists() {
                0 => String::new(),
                _ => format!("; up to {nodes} nodes, {entries} entries, {work} words of work space"),
            };
            let head = format!("{}: {calls} calls, {} differ{lengths}\n", call.name(), self.differ[call]);
            head + &self.rows(*call)
        };
        self.calls.iter().map(block).collect()
    }

    fn rows(&self, call: Call) -> String {
        type Kind = (&'static str, fn(Answered) -> Option<u64>);
        let kinds: [Kind; 5] = [
            ("numbers", |answered| if let Answered::Number(word) = answered { Some(word) } else { None }),
            ("found", |answered| if let Answered::Found(word) = answered { Some(word) } else { None }),
            ("states", |answered| if let Answered::State(word) = answered { Some(word) } else { None }),
            ("other states", |answered| if let Answered::OtherState(word) = answered { Some(word) } else { None }),
            ("programs left", |answered| if let Answered::Left(word) = answered { Some(word) } else { None }),
        ];
        kinds.iter().map(|(name, word)| self.row(call, name, *word)).collect()
    }

    fn row(&self, call: Call, name: &str, word: fn(Answered) -> Option<u64>) -> String {
        let own = self.answered.iter().filter(|((of, _), _)| *of == call);
        let counts = own.filter_map(|((_, answered), count)| Some(format!("{}: {count}", word(*answered)?)));
        let counts: Vec<String> = counts.collect();
        if counts.is_empty() {
            return String::new();
        }
        format!("  {name:13} {}\n", counts.join(", "))
    }
}

fn add_all<K: Ord>(to: &mut BTreeMap<K, u64>, from: BTreeMap<K, u64>) {
    for (key, count) in from {
        *to.entry(key).or_default() += count;
    }
}

/// What one call's words say.
fn answered(call: Call, seen: &Seen) -> Vec<Answered> {
    let words = &seen.answer;
    let mut answered = vec![Answered::Number(words[0])];
    if words[0] != 0 {
        return answered;
    }
    match call {
        Call::Compare | Call::Separate => {
            answered.extend([Answered::Found(words[2]), Answered::State(words[4]), Answered::OtherState(words[7])])
        }
        Call::Evaluate => {
            let written = seen.pairs.chunks_exact(2).map(|pair| pair[0]);
            answered.extend(written.filter(|&state| state <= 5).map(Answered::State));
        }
        Call::RemoveLsbVar => answered.push(Answered::Left(words[1])),
        _ => {}
    }
    answered
}

/// All that a call can answer: a run that misses one of these tests too little.
fn can_answer(call: Call) -> Vec<Answered> {
    let numbers: &[u64] = match call {
        Call::Verify => &[0, 1, 2, 3, 4, 5, 6, 10],
        Call::Evaluate => &[0, 1, 2, 3, 4, 5, 6, 7, 8, 10, 12, 19],
        Call::Compare => &[0, 1, 2, 3, 4, 5, 6, 7, 8, 9, 10],
        Call::Separate => &[0, 1, 2, 3, 4, 5, 6, 7, 8, 10, 11],
        Call::Canonicalize => &[0, 1, 2, 3, 4, 5, 6, 7, 8, 10, 14, 19],
        _ => &[0, 13],
    };
    let (found, states, other): (&[u64], &[u64], &[u64]) = match call {
        Call::Evaluate => (&[], &[0, 1, 2, 3, 4, 5], &[]),
        Call::Compare => (&[0, 1, 2], &[0, 2, 3, 4], &[0, 1, 2, 3, 4]),
        Call::Separate => (&[0, 1], &[0, 2, 3, 4], &[0, 2, 3, 4]),
        _ => (&[], &[], &[]),
    };
    let left: &[u64] = if call == Call::RemoveLsbVar { &[0, 1] } else { &[] };
    let words = |words: &[u64], kind: fn(u64) -> Answered| words.iter().copied().map(kind).collect::<Vec<_>>();
    [
        words(numbers, Answered::Number),
        words(found, Answered::Found),
        words(states, Answered::State),
        words(other, Answered::OtherState),
        words(left, Answered::Left),
    ]
    .concat()
}

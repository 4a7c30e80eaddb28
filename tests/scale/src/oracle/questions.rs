//! Which cases the original Rust is asked, and in what words: those that the library answers with 0 (and 6, of the
//! verifier), and that a walk along every path of a tree can end on.
use crate::case::{Call, Case};
use crate::library::Seen;
use crate::model::calls::widths;
use crate::model::list::List;

/// Nodes that the Rust may meet on its walks, all assignments together.
const MOST_STEPS: u64 = 300_000;

pub struct Question {
    pub case: Case,
    /// The oracle's command and its line.
    pub command: &'static str,
    pub line: String,
    /// The words that the library's answer stands for.
    pub ours: Vec<u64>,
}

pub const COMMANDS: [&str; 6] = ["verify", "evaluate", "compare", "separate", "canonicalise", "tables"];

/// None where the Rust has no answer to compare with.
pub fn question(case: &Case, seen: &Seen) -> Option<Question> {
    let number = seen.answer[0];
    if !(number == 0 || (number == 6 && case.call == Call::Verify)) || steps(case) > MOST_STEPS {
        return None;
    }
    let [first, second] = &case.lists;
    let (command, line, ours) = match case.call {
        Call::Verify => ("verify", list_line(first, &[]), vec![u64::from(number == 0)]),
        Call::Evaluate => ("evaluate", evaluate_line(case), answers(case, seen)),
        Call::Compare => ("compare", compare_line(first, second), seen.answer[2..].to_vec()),
        Call::Separate => ("separate", list_line(first, &case.numbers[..2]), seen.answer[2..].to_vec()),
        Call::Canonicalize => ("canonicalise", list_line(first, &[]), seen_list(seen)),
        _ => ("tables", table_line(case), seen.answer.clone()),
    };
    Some(Question { case: case.clone(), command, line, ours })
}

// ---- how long the Rust would take

/// The nodes below each node as a tree, itself included.
fn tree_sizes(list: &List) -> Vec<u64> {
    let mut sizes: Vec<u64> = Vec::new();
    for words in list.nodes.chunks_exact(3) {
        let part = list.pool.iter().skip(words[1] as usize).take(words[2] as usize);
        let below: Vec<u32> = if words[0] < 4 { Vec::new() } else { part.copied().collect() };
        let size = below.iter().fold(1u64, |size, &child| size.saturating_add(sizes[child as usize]));
        sizes.push(size);
    }
    sizes
}

fn steps(case: &Case) -> u64 {
    let sizes = |list: &List| tree_sizes(list).into_iter().fold(0u64, u64::saturating_add);
    let all = case.brought().iter().map(sizes).fold(0u64, u64::saturating_add);
    let assignments = match case.call {
        Call::Separate => 2u64.saturating_pow(case.numbers[0].min(63) as u32),
        Call::Compare => 2u64.saturating_pow(variables(&case.lists[0]).min(63) as u32),
        _ => 1,
    };
    all.saturating_mul(assignments)
}

fn variables(list: &List) -> usize {
    let numbers = list.nodes.chunks_exact(3).filter(|words| words[0] == 3).map(|words| words[1]);
    numbers.collect::<std::collections::BTreeSet<u32>>().len()
}

// ---- lines

fn spaced<T: ToString>(words: &[T]) -> String {
    words.iter().map(|word| format!(" {}", word.to_string())).collect()
}

/// Lengths, further numbers, node words, entries.
fn list_line(list: &List, numbers: &[u64]) -> String {
    let lengths = format!("{} {}", list.nodes.len(), list.pool.len());
    lengths + &spaced(numbers) + &spaced(&list.nodes) + &spaced(&list.pool)
}

fn evaluate_line(case: &Case) -> String {
    list_line(&case.lists[0], &[case.bytes.len() as u64]) + &spaced(&case.bytes)
}

fn compare_line(first: &List, second: &List) -> String {
    let lengths = [first.nodes.len(), first.pool.len(), second.nodes.len(), second.pool.len()];
    let words = [&first.nodes[..], &first.pool, &second.nodes, &second.pool];
    spaced(&lengths) + &words.map(spaced).concat()
}

fn table_line(case: &Case) -> String {
    let count = match case.call {
        Call::EvalLut | Call::EvalLutBv => 1,
        Call::EvalLutConstInput | Call::SwapPos => 3,
        _ => 2,
    };
    case.call.name().to_string() + &spaced(&case.numbers[..count]) + &spaced(&case.bytes)
}

// ---- the library's answer in the oracle's words

/// State, width and value of each node; the pair does not say the width, which is the node's shape.
fn answers(case: &Case, seen: &Seen) -> Vec<u64> {
    let pairs = seen.pairs.chunks_exact(2).zip(widths(&case.lists[0]));
    pairs.flat_map(|(pair, width)| [pair[0], if pair[0] == 0 { width } else { 0 }, pair[1]]).collect()
}

fn seen_list(seen: &Seen) -> Vec<u64> {
    let [words, entries] = [seen.answer[2], seen.answer[3]];
    let nodes = seen.out_nodes[..words as usize].iter().copied().map(u64::from);
    let pool = seen.out_pool[..entries as usize].iter().copied().map(u64::from);
    [words, entries].into_iter().chain(nodes).chain(pool).collect()
}

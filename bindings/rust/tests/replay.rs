//! Replays the recorded cases of every capability through the safe calls: the answers, what is left in work space and
//! output, and the words beside them. What stands in a line is said in vectors/tables.py, verify.py, evaluate.py,
//! compare.py, separate.py and canonicalise.py. That nothing which is lent to be read changes is tried by
//! bindings/c/replay.c; Rust takes it for granted.
mod support;

use panel::{Evaluation, Foreign, List};
use support::cases::{replay, same, Words};
use support::lent::Lent;
use support::words_of;

// ---- truth tables

fn table_answer(routine: u64, p: u64, [size, pos, v]: [u64; 3], inputs: &[u8]) -> Result<[u64; 3], Foreign> {
    match routine {
        0 => panel::eval_lut(p, inputs).map(words_of::lut_bit),
        1 => panel::eval_lut_bv(p, inputs).map(words_of::lut_bit),
        2 => panel::to_bitvec(p, size).map(words_of::bit_vector),
        3 => panel::remove_lsb_var(p, size).map(words_of::removed),
        4 => panel::eval_lut_const_input(p, size, v).map(words_of::table_program),
        5 => panel::cofactors_in_msb(p, size).map(words_of::cofactors),
        6 => panel::swap_pos(p, size, pos).map(words_of::table_program),
        _ => panic!("there is no routine {routine}"),
    }
}

fn table(words: &mut Words) -> Vec<String> {
    let [routine, p] = words.block();
    let arguments = words.block();
    let expected = words.block();
    let count = words.length();
    let room = words.bytes(8);
    let got = table_answer(routine, p, arguments, &room[..count]);
    same("answered", got, Ok(expected)).into_iter().collect()
}

// ---- lists

fn verify(words: &mut Words) -> Vec<String> {
    let (node_words, entries) = (words.length(), words.length());
    let mut work = Lent::new("work space", words.length());
    let expected = words.block();
    let cleared = words.flag();
    let (nodes, pool) = (words.words32(node_words), words.words32(entries));
    let got = panel::verify(List { nodes: &nodes, pool: &pool }, work.part());
    let mut faults = work.faults(0, cleared);
    faults.extend(same("answered", words_of::done(&got), Ok(expected)));
    faults
}

/// The pairs as they were written, as the answers that they stand for say them again, and the root's alone.
fn evaluation_faults(got: Evaluation, pairs: &[u64], [state, _, value]: [u64; 3]) -> Vec<String> {
    let answers: Result<Vec<_>, Foreign> = got.answers().collect();
    let again = answers.map(|all| all.into_iter().flat_map(words_of::node_answer).collect());
    let faults = [
        same("wrote", got.pairs, pairs),
        same("wrote answers", again, Ok(pairs.to_vec())),
        same("has the root", words_of::node_answer(got.root), [state, value]),
    ];
    faults.into_iter().flatten().collect()
}

fn evaluate(words: &mut Words) -> Vec<String> {
    let (node_words, entries, byte_count) = (words.length(), words.length(), words.length());
    let mut work = Lent::new("work space", words.length());
    let mut out = Lent::new("output", words.length());
    let expected: [u64; 2] = words.block();
    let root = words.block();
    let cleared = words.flag();
    let (nodes, pool) = (words.words32(node_words), words.words32(entries));
    let bytes = words.bytes(byte_count);
    let pairs = words.words(if expected[0] == 0 { node_words / 3 * 2 } else { 0 });
    let got = panel::evaluate(List { nodes: &nodes, pool: &pool }, &bytes, work.part(), out.part());
    let mut faults: Vec<String> = same("answered", words_of::done(&got), Ok(expected)).into_iter().collect();
    if let Ok(evaluation) = got {
        faults.extend(evaluation_faults(evaluation, &pairs, root));
    }
    faults.extend(work.faults(0, cleared));
    faults.extend(out.faults(pairs.len(), false));
    faults
}

fn compare(words: &mut Words) -> Vec<String> {
    let [words1, entries1, words2, entries2] = std::array::from_fn(|_| words.length());
    let mut work = Lent::new("work space", words.length());
    let expected = words.block();
    let cleared = words.flag();
    let (nodes1, pool1) = (words.words32(words1), words.words32(entries1));
    let (nodes2, pool2) = (words.words32(words2), words.words32(entries2));
    let first = List { nodes: &nodes1, pool: &pool1 };
    let second = List { nodes: &nodes2, pool: &pool2 };
    let got = panel::compare(first, second, work.part());
    let mut faults = work.faults(0, cleared);
    faults.extend(same("answered", words_of::comparison(got), Ok(expected)));
    faults
}

fn separate(words: &mut Words) -> Vec<String> {
    let (node_words, entries) = (words.length(), words.length());
    let (n, marks) = (words.word32(), words.word32());
    let mut work = Lent::new("work space", words.length());
    let expected = words.block();
    let cleared = words.flag();
    let (nodes, pool) = (words.words32(node_words), words.words32(entries));
    let got = panel::separate(List { nodes: &nodes, pool: &pool }, n, marks, work.part());
    let mut faults = work.faults(0, cleared);
    faults.extend(same("answered", words_of::separation(got), Ok(expected)));
    faults
}

const NOT_ASKED: u64 = 3;

/// The list as it was written, and what a comparison of the given list with it says, where that is asked.
fn canonical_faults(given: List, got: List, expected: List, verdict: u64) -> Vec<String> {
    let mut faults: Vec<String> = same("wrote", got, expected).into_iter().collect();
    if verdict != NOT_ASKED {
        let mut work = Lent::new("work space", panel::work_for(&[given, got]));
        let found = words_of::comparison(panel::compare(given, got, work.part()));
        faults.extend(same("compares as", found.map(|words| [words[0], words[2]]), Ok([0, verdict])));
    }
    faults
}

fn canonicalise(words: &mut Words) -> Vec<String> {
    let (node_words, entries) = (words.length(), words.length());
    let mut work: Lent<u64> = Lent::new("work space", words.length());
    let mut out_nodes: Lent<u32> = Lent::new("output of nodes", words.length());
    let mut out_pool: Lent<u32> = Lent::new("output of the pool", words.length());
    let expected: [u64; 2] = words.block();
    let (written_nodes, written_pool) = (words.length(), words.length());
    let verdict = words.word();
    let cleared = words.flag();
    let (nodes, pool) = (words.words32(node_words), words.words32(entries));
    let (canonical_nodes, canonical_pool) = (words.words32(written_nodes), words.words32(written_pool));
    let given = List { nodes: &nodes, pool: &pool };
    let canonical = List { nodes: &canonical_nodes, pool: &canonical_pool };
    let got = panel::canonicalize(given, work.part(), out_nodes.part(), out_pool.part());
    let mut faults: Vec<String> = same("answered", words_of::done(&got), Ok(expected)).into_iter().collect();
    if let Ok(list) = got {
        faults.extend(canonical_faults(given, list, canonical, verdict));
    }
    faults.extend(work.faults(0, cleared));
    faults.extend(out_nodes.faults(written_nodes, false));
    faults.extend(out_pool.faults(written_pool, false));
    faults
}

#[test]
fn replay_tables() {
    replay("tables", table);
}

#[test]
fn replay_verify() {
    replay("verify", verify);
}

#[test]
fn replay_evaluate() {
    replay("evaluate", evaluate);
}

#[test]
fn replay_compare() {
    replay("compare", compare);
}

#[test]
fn replay_separate() {
    replay("separate", separate);
}

#[test]
fn replay_canonicalise() {
    replay("canonicalise", canonicalise);
}

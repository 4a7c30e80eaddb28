//! What a panel does before it loads a stop table: verify, compare with the drawing, separate the run signals. Six
//! cases are built in, one that may be loaded and five that may not. The program says what it found in plain words; its
//! status is 0 only if every case was decided as it should be. It prints the same lines as examples/c/load_check.c.
//!
//! It lends the library fixed arrays, as firmware would. docs/LINKING.md explains it.
mod networks;
mod words;

use networks::{Case, CASES, RUN_SIGNALS, SIGNALS};
use panel::words::{NODE_WORDS, WORK_PER_NODE, WORK_PER_POOL};
use panel::{canonicalize, compare, separate, verify, Check, Judgement, List};
use std::process::ExitCode;

/// This panel's own limits, and all that it lends.
const MOST_NODES: usize = 64;
const MOST_POOL: usize = 256;
const TWO_LISTS: usize = 2 * (WORK_PER_NODE * MOST_NODES + WORK_PER_POOL * MOST_POOL);

struct Lent {
    work: [u64; TWO_LISTS],
    out_nodes: [u32; NODE_WORDS * MOST_NODES],
    out_pool: [u32; MOST_POOL],
}

// ---- the three steps; each is true only where the next may be taken

fn verified(what: &str, list: List, work: &mut [u64]) -> bool {
    let found = verify(list, work);
    let said = found.map_or_else(words::of_error, |()| "verified".into());
    println!("  {what}: {said}");
    found.is_ok()
}

fn equivalent(drawing: List, table: List, work: &mut [u64]) -> bool {
    let found = compare(drawing, table, work);
    let said = match &found {
        Ok(found) if found.verdict == Check::Equiv => "alike under every assignment".into(),
        Ok(found) => words::of_difference(found),
        Err(error) => words::of_error(*error),
    };
    println!("  compared: {said}");
    matches!(found, Ok(found) if found.verdict == Check::Equiv)
}

fn separated(table: List, work: &mut [u64]) -> bool {
    let found = separate(table, SIGNALS, RUN_SIGNALS, work);
    let said = match &found {
        Ok(found) if found.judgement == Judgement::Separate => "no run signal changes the answer".into(),
        Ok(found) => words::of_crossing(found),
        Err(error) => words::of_error(*error),
    };
    println!("  separated: {said}");
    matches!(found, Ok(found) if found.judgement == Judgement::Separate)
}

/// Anything but Equiv and Separate means: do not load.
fn may_load(drawing: List, table: List, work: &mut [u64]) -> bool {
    verified("drawing", drawing, work)
        && verified("table", table, work)
        && equivalent(drawing, table, work)
        && separated(table, work)
}

/// The canonical list: of a table that is loaded it shows what is left once all that makes no difference is dropped.
fn canonical(case: &Case, lent: &mut Lent) -> bool {
    match canonicalize(case.table, &mut lent.work, &mut lent.out_nodes, &mut lent.out_pool) {
        Err(error) => {
            println!("  canonical list: {}", words::of_error(error));
            false
        }
        Ok(list) => {
            println!("  canonical list of the table:");
            println!("    nodes{}", words::of_words(list.nodes));
            println!("    pool{}", words::of_words(list.pool));
            equivalent(case.drawing, list, &mut lent.work)
        }
    }
}

// ---- all cases

fn as_it_should_be(case: &Case, lent: &mut Lent) -> bool {
    println!("{}", case.title);
    let work_len = case.work_len.min(TWO_LISTS);
    let loads = may_load(case.drawing, case.table, &mut lent.work[..work_len]);
    println!("  {}", if loads { "load it" } else { "do not load it" });
    loads == case.loads && (!loads || canonical(case, lent))
}

fn main() -> ExitCode {
    let mut lent = Lent { work: [0; TWO_LISTS], out_nodes: [0; NODE_WORDS * MOST_NODES], out_pool: [0; MOST_POOL] };
    let wrong = CASES.iter().filter(|case| !as_it_should_be(case, &mut lent)).count();
    println!("{wrong} of {} cases decided otherwise than they should be", CASES.len());
    if wrong == 0 {
        ExitCode::SUCCESS
    } else {
        ExitCode::FAILURE
    }
}

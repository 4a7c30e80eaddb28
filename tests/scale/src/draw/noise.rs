//! Words that are no list by design: random words of random lengths.
use super::rng::Rng;
use crate::model::list::List;

pub fn noise(rng: &mut Rng) -> List {
    let whole = rng.percent(75);
    let nodes = rng.below(14);
    let words = if whole { 3 * nodes } else { rng.below(40) };
    let entries = rng.below(24);
    let tame = rng.percent(80);
    let node_word = |place: usize, rng: &mut Rng| if tame { tame_word(rng, place, entries) } else { wild_word(rng) };
    let nodes = (0..words).map(|place| node_word(place, rng)).collect();
    let pool = (0..entries).map(|_| if tame { rng.below(12) as u32 } else { wild_word(rng) }).collect();
    List { nodes, pool }
}

fn wild_word(rng: &mut Rng) -> u32 {
    if rng.percent(50) {
        rng.special()
    } else {
        rng.next() as u32
    }
}

/// A kind, a first or a count that may well be right.
fn tame_word(rng: &mut Rng, place: usize, entries: usize) -> u32 {
    let bound = match place % 3 {
        0 => 18,
        1 => entries.min(6) + 1,
        _ => 4,
    };
    if rng.percent(25) {
        return 0;
    }
    rng.below(bound) as u32
}

//! Lists damaged by a word or a few: changed, dropped, added, exchanged, pointed elsewhere.
use super::rng::Rng;
use crate::model::list::List;

/// One to three damages.
pub fn damage(rng: &mut Rng, list: &mut List) {
    for _ in 0..rng.pick(&[1, 1, 1, 2, 3]) {
        damage_once(rng, list);
    }
}

fn damage_once(rng: &mut Rng, list: &mut List) {
    match rng.below(12) {
        0 => change(rng, &mut list.nodes),
        1 => change(rng, &mut list.pool),
        2 => drop_word(rng, list),
        3 => add_word(rng, list),
        4 => exchange(rng, &mut list.nodes),
        5 => exchange(rng, &mut list.pool),
        6 => exchange_nodes(rng, list),
        7 => drop_node(rng, list),
        8 => point_elsewhere(rng, list),
        9 => nudge(rng, list),
        10 => change_kind(rng, list),
        _ => move_part(rng, list),
    }
}

fn change(rng: &mut Rng, words: &mut [u32]) {
    if words.is_empty() {
        return;
    }
    let place = rng.below(words.len());
    words[place] = match rng.below(3) {
        0 => rng.special(),
        1 => words[place] ^ 1 << rng.below(32),
        _ => rng.below(20) as u32,
    };
}

fn drop_word(rng: &mut Rng, list: &mut List) {
    let words = if rng.percent(50) { &mut list.nodes } else { &mut list.pool };
    if !words.is_empty() {
        words.remove(rng.below(words.len()));
    }
}

fn add_word(rng: &mut Rng, list: &mut List) {
    let words = if rng.percent(50) { &mut list.nodes } else { &mut list.pool };
    let place = rng.below(words.len() + 1);
    words.insert(place, rng.special());
}

fn exchange(rng: &mut Rng, words: &mut [u32]) {
    if !words.is_empty() {
        let (a, b) = (rng.below(words.len()), rng.below(words.len()));
        words.swap(a, b);
    }
}

/// A node number, of a list that has nodes.
fn any_node(rng: &mut Rng, list: &List) -> Option<usize> {
    let count = list.node_count();
    (count > 0).then(|| rng.below(count))
}

fn exchange_nodes(rng: &mut Rng, list: &mut List) {
    let Some((a, b)) = any_node(rng, list).zip(any_node(rng, list)) else {
        return;
    };
    for word in 0..3 {
        list.nodes.swap(3 * a + word, 3 * b + word);
    }
}

/// The nodes behind it move down, and their children's numbers don't.
fn drop_node(rng: &mut Rng, list: &mut List) {
    if let Some(node) = any_node(rng, list) {
        list.nodes.drain(3 * node..3 * node + 3);
    }
}

fn point_elsewhere(rng: &mut Rng, list: &mut List) {
    if list.pool.is_empty() {
        return;
    }
    let (place, nodes) = (rng.below(list.pool.len()), list.node_count() as u32);
    list.pool[place] = match rng.below(4) {
        0 => rng.special(),
        1 => nodes,
        2 => nodes.saturating_sub(1),
        _ => rng.below(nodes as usize + 1) as u32,
    };
}

/// A field one up or one down.
fn nudge(rng: &mut Rng, list: &mut List) {
    let Some(node) = any_node(rng, list) else {
        return;
    };
    let word = &mut list.nodes[3 * node + rng.within(1, 2)];
    *word = if rng.percent(50) { word.wrapping_add(1) } else { word.wrapping_sub(1) };
}

fn change_kind(rng: &mut Rng, list: &mut List) {
    let Some(node) = any_node(rng, list) else {
        return;
    };
    list.nodes[3 * node] =
        if rng.percent(60) { rng.below(17) as u32 } else { rng.pick(&[17, 18, 32, 256, 0x8000_0000, 0xffff_ffff]) };
}

/// The children's part to the pool's end, past it, or where first + count would wrap.
fn move_part(rng: &mut Rng, list: &mut List) {
    let (Some(node), entries) = (any_node(rng, list), list.pool.len() as u32) else {
        return;
    };
    let count = list.nodes[3 * node + 2];
    list.nodes[3 * node + 1] = match rng.below(4) {
        0 => entries.wrapping_sub(count),
        1 => entries.wrapping_sub(count).wrapping_add(1),
        2 => 0u32.wrapping_sub(count),
        _ => 0u32.wrapping_sub(count).wrapping_add(rng.below(4) as u32),
    };
}

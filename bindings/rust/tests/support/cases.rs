//! The recorded cases of one capability: decimal words in `crates/replay_<capability>/stdin`, and beside them in `stdout`
//! what a replay says of them at its end.
use std::fs;
use std::path::{Path, PathBuf};
use std::vec::IntoIter;

const MOST_DIFFERING: usize = 10;

pub struct Words(IntoIter<u64>);

impl Words {
    fn is_empty(&self) -> bool {
        self.0.as_slice().is_empty()
    }

    pub fn word(&mut self) -> u64 {
        self.0.next().expect("the cases end in the middle of one")
    }

    pub fn length(&mut self) -> usize {
        usize::try_from(self.word()).expect("a length is too large")
    }

    pub fn word32(&mut self) -> u32 {
        u32::try_from(self.word()).expect("a word is too large for its place")
    }

    pub fn flag(&mut self) -> bool {
        match self.word() {
            0 => false,
            1 => true,
            other => panic!("{other} stands where 0 or 1 should"),
        }
    }

    pub fn words(&mut self, count: usize) -> Vec<u64> {
        (0..count).map(|_| self.word()).collect()
    }

    pub fn block<const N: usize>(&mut self) -> [u64; N] {
        std::array::from_fn(|_| self.word())
    }

    pub fn words32(&mut self, count: usize) -> Vec<u32> {
        (0..count).map(|_| self.word32()).collect()
    }

    pub fn bytes(&mut self, count: usize) -> Vec<u8> {
        (0..count).map(|_| u8::try_from(self.word()).expect("a word is too large for a byte")).collect()
    }
}

fn recorded(capability: &str, name: &str) -> PathBuf {
    Path::new(env!("CARGO_MANIFEST_DIR")).join(format!("../../crates/replay_{capability}/{name}"))
}

fn text(capability: &str, name: &str) -> String {
    let path = recorded(capability, name);
    fs::read_to_string(&path)
        .unwrap_or_else(|why| panic!("{}: {why}; python3 vectors/{capability}.py makes it", path.display()))
}

fn words(capability: &str) -> Words {
    let all: Vec<u64> = text(capability, "stdin")
        .split_ascii_whitespace()
        .map(|word| word.parse().unwrap_or_else(|_| panic!("{word} is no word")))
        .collect();
    Words(all.into_iter())
}

/// Tries every case, or until ten differ; `tried` reads one and gives back its faults. There must be as many cases as are
/// recorded, and none with a fault.
pub fn replay(capability: &str, tried: impl Fn(&mut Words) -> Vec<String>) {
    let mut words = words(capability);
    let mut cases = 0;
    let mut differ = 0;
    while !words.is_empty() && differ < MOST_DIFFERING {
        cases += 1;
        let faults = tried(&mut words);
        differ += usize::from(!faults.is_empty());
        faults.iter().for_each(|fault| println!("{capability}, case {cases} differs: {fault}"));
    }
    let said = format!("{cases} cases, {differ} differ\n");
    print!("{capability}: {said}");
    assert_eq!(said, text(capability, "stdout"));
}

/// A fault where two things differ.
pub fn same<T: PartialEq + std::fmt::Debug>(what: &str, got: T, expected: T) -> Option<String> {
    (got != expected).then(|| format!("{what} {got:?} and not {expected:?}"))
}

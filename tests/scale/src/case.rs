//! A case: one call with all that is lent to it, and its text, which `--replay` reads again.
use crate::model::list::List;

#[derive(Clone, Copy, Debug, PartialEq, Eq, Hash, PartialOrd, Ord)]
pub enum Call {
    Verify,
    Evaluate,
    Compare,
    Separate,
    Canonicalize,
    EvalLut,
    EvalLutBv,
    ToBitvec,
    RemoveLsbVar,
    EvalLutConstInput,
    CofactorsInMsb,
    SwapPos,
}

pub const CALLS: [Call; 12] = [
    Call::Verify,
    Call::Evaluate,
    Call::Compare,
    Call::Separate,
    Call::Canonicalize,
    Call::EvalLut,
    Call::EvalLutBv,
    Call::ToBitvec,
    Call::RemoveLsbVar,
    Call::EvalLutConstInput,
    Call::CofactorsInMsb,
    Call::SwapPos,
];

impl Call {
    pub fn name(self) -> &'static str {
        match self {
            Call::Verify => "verify",
            Call::Evaluate => "evaluate",
            Call::Compare => "compare",
            Call::Separate => "separate",
            Call::Canonicalize => "canonicalize",
            Call::EvalLut => "eval_lut",
            Call::EvalLutBv => "eval_lut_bv",
            Call::ToBitvec => "to_bitvec",
            Call::RemoveLsbVar => "remove_lsb_var",
            Call::EvalLutConstInput => "eval_lut_const_input",
            Call::CofactorsInMsb => "cofactors_in_msb",
            Call::SwapPos => "swap_pos",
        }
    }

    pub fn named(name: &str) -> Option<Call> {
        CALLS.into_iter().find(|call| call.name() == name)
    }

    pub fn lists(self) -> usize {
        match self {
            Call::Compare => 2,
            Call::Verify | Call::Evaluate | Call::Separate | Call::Canonicalize => 1,
            _ => 0,
        }
    }

    /// How many words the answer block has (include/panel.h).
    pub fn answer_words(self) -> usize {
        match self {
            Call::Verify | Call::Evaluate => 2,
            Call::Compare | Call::Separate => 10,
            Call::Canonicalize => 4,
            _ => 3,
        }
    }
}

/// What a call does not take is empty or 0.
#[derive(Clone, Debug, PartialEq, Eq)]
pub struct Case {
    pub call: Call,
    pub lists: [List; 2],
    /// The second list is the first, lent once and named twice.
    pub lent_once: bool,
    /// The assignment's bytes, or a truth-table routine's inputs.
    pub bytes: Vec<u8>,
    /// n and marks of a separation; a truth-table routine's numbers.
    pub numbers: [u64; 3],
    /// Words lent as work space.
    pub work: usize,
    /// Words lent as output: an evaluation's pairs, or a canonical list's nodes.
    pub out: usize,
    /// Words lent for a canonical list's pool.
    pub out_pool: usize,
}

impl Case {
    pub fn new(call: Call) -> Case {
        let lists = [List::default(), List::default()];
        Case { call, lists, lent_once: false, bytes: Vec::new(), numbers: [0; 3], work: 0, out: 0, out_pool: 0 }
    }

    /// The lists that the call takes.
    pub fn brought(&self) -> &[List] {
        &self.lists[..self.call.lists()]
    }

    pub fn work_asked(&self) -> usize {
        self.brought().iter().map(List::work_words).sum()
    }

    /// How many words the case is written with: the smaller, the easier to read.
    pub fn size(&self) -> usize {
        let lists: usize = self.brought().iter().map(|list| list.nodes.len() + list.pool.len()).sum();
        lists + self.bytes.len()
    }
}

// ---- text

fn joined<T: ToString>(words: &[T]) -> String {
    words.iter().map(T::to_string).collect::<Vec<_>>().join(",")
}

/// One line: the call's name, then what is lent to it.
pub fn write(case: &Case) -> String {
    let [first, second] = &case.lists;
    format!(
        "{} nodes={} pool={} nodes2={} pool2={} lent_once={} bytes={} numbers={} work={} out={} out_pool={}",
        case.call.name(),
        joined(&first.nodes),
        joined(&first.pool),
        joined(&second.nodes),
        joined(&second.pool),
        u8::from(case.lent_once),
        joined(&case.bytes),
        joined(&case.numbers),
        case.work,
        case.out,
        case.out_pool
    )
}

fn words<T: std::str::FromStr>(text: &str) -> Result<Vec<T>, String> {
    let word = |word: &str| word.parse().map_err(|_| format!("'{word}' is no number that fits here"));
    text.split(',').filter(|word| !word.is_empty()).map(word).collect()
}

fn number<T: std::str::FromStr + Copy>(text: &str) -> Result<T, String> {
    words(text)?.first().copied().ok_or("a number is missing".into())
}

pub fn read(line: &str) -> Result<Case, String> {
    let mut parts = line.split_whitespace();
    let name = parts.next().ok_or("a line without a call")?;
    let mut case = Case::new(Call::named(name).ok_or(format!("'{name}' is no call"))?);
    for part in parts {
        let (field, text) = part.split_once('=').ok_or(format!("'{part}' is no field"))?;
        read_field(&mut case, field, text)?;
    }
    if case.lent_once && case.lists[0] != case.lists[1] {
        return Err("two lists lent once must be the same".into());
    }
    Ok(case)
}

fn read_field(case: &mut Case, field: &str, text: &str) -> Result<(), String> {
    match field {
        "nodes" => case.lists[0].nodes = words(text)?,
        "pool" => case.lists[0].pool = words(text)?,
        "nodes2" => case.lists[1].nodes = words(text)?,
        "pool2" => case.lists[1].pool = words(text)?,
        "lent_once" => case.lent_once = number::<u8>(text)? == 1,
        "bytes" => case.bytes = words(text)?,
        "numbers" => case.numbers = words(text)?.try_into().map_err(|_| "there must be three numbers")?,
        "work" => case.work = number(text)?,
        "out" => case.out = number(text)?,
        "out_pool" => case.out_pool = number(text)?,
        _ => return Err(format!("'{field}' is no field")),
    }
    Ok(())
}

//! The numbers that a call refuses with, and what else can go wrong.
use core::fmt;

/// Why a call was refused.
#[derive(Clone, Copy, Debug, PartialEq, Eq, Hash)]
#[repr(u64)]
pub enum Number {
    /// The node words do not make whole nodes.
    NotAligned = 1,
    /// More nodes or pool entries than are allowed.
    OverLimit = 2,
    /// There is no such kind.
    UnknownKind = 3,
    /// A field or child count breaks the layout, or the children run past the pool.
    BadLayout = 4,
    /// A child is not numbered below its node.
    BadChild = 5,
    /// A node breaks a rule of verification.
    NotVerified = 6,
    /// The list is empty, and a root is needed.
    NoRoot = 7,
    /// The list verifies, but a node can not be evaluated.
    NotEvaluable = 8,
    /// The trees differ, and over 30 variables stand below the first root.
    ManyInputs = 9,
    /// Less work space than [`work_for`](crate::work_for) says.
    LittleWork = 10,
    /// n above 30, or a variable or a mark at n or above.
    OutOfBounds = 11,
    /// More than 256 assignment bytes, or a byte above 2.
    BadAssignment = 12,
    /// A truth-table argument outside its range.
    BadTable = 13,
    /// A gate that is not a bit, where it should become a lookup table.
    WideGate = 14,
    /// The answer does not fit the output.
    ShortOutput = 19,
}

const NUMBERS: [Number; 15] = [
    Number::NotAligned,
    Number::OverLimit,
    Number::UnknownKind,
    Number::BadLayout,
    Number::BadChild,
    Number::NotVerified,
    Number::NoRoot,
    Number::NotEvaluable,
    Number::ManyInputs,
    Number::LittleWork,
    Number::OutOfBounds,
    Number::BadAssignment,
    Number::BadTable,
    Number::WideGate,
    Number::ShortOutput,
];

impl Number {
    /// The number as document 01 has it.
    pub fn word(self) -> u64 {
        self as u64
    }

    fn of(word: u64) -> Result<Number, Foreign> {
        NUMBERS.into_iter().find(|number| number.word() == word).ok_or(Foreign(word))
    }
}

/// A refusal: its number and, for 3 to 6, 8 and 14, the lowest faulty node, else 0.
#[derive(Clone, Copy, Debug, PartialEq, Eq, Hash)]
pub struct Refusal {
    /// Why.
    pub number: Number,
    /// Where. In a comparison it is numbered in its own list.
    pub node: u64,
}

/// A word from the library that has no meaning in its place.
#[derive(Clone, Copy, Debug, PartialEq, Eq, Hash)]
pub struct Foreign(pub u64);

/// Why a call over lists has no answer.
#[derive(Clone, Copy, Debug, PartialEq, Eq, Hash)]
pub enum Error {
    /// The call was refused.
    Refused(Refusal),
    /// The library answered with a word that is not known here.
    Foreign(Foreign),
}

/// The first two words of an answer. Number 0 has node 0; another node there is foreign, so that no word is lost.
pub(crate) fn done_or_refused(number: u64, node: u64) -> Result<(), Error> {
    match (number, node) {
        (0, 0) => Ok(()),
        (0, _) => Err(Error::Foreign(Foreign(node))),
        _ => Err(Error::Refused(Refusal { number: Number::of(number)?, node })),
    }
}

impl From<Foreign> for Error {
    fn from(foreign: Foreign) -> Error {
        Error::Foreign(foreign)
    }
}

impl fmt::Display for Refusal {
    fn fmt(&self, to: &mut fmt::Formatter) -> fmt::Result {
        write!(to, "refused with {} at node {}: {:?}", self.number.word(), self.node, self.number)
    }
}

impl fmt::Display for Foreign {
    fn fmt(&self, to: &mut fmt::Formatter) -> fmt::Result {
        write!(to, "the library answered {}, which is not known here", self.0)
    }
}

impl fmt::Display for Error {
    fn fmt(&self, to: &mut fmt::Formatter) -> fmt::Result {
        match self {
            Error::Refused(refusal) => refusal.fmt(to),
            Error::Foreign(foreign) => foreign.fmt(to),
        }
    }
}

impl core::error::Error for Foreign {}

impl core::error::Error for Error {}

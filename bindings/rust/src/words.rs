//! The words of a node list and of what is lent beside it, under the names of `include/panel.h`.

/// A node's kind, its first word. From `NOR` on the children are the pool entries first to first + count - 1.
pub mod kind {
    /// first is 0 or 1, count 0
    pub const CONST: u32 = 0;
    /// first the low half, count the high half
    pub const PROGRAM: u32 = 1;
    /// both 0
    pub const DC: u32 = 2;
    /// first is the variable's number, 0 to 255; count 0
    pub const VAR: u32 = 3;
    /// 2 children
    pub const NOR: u32 = 4;
    /// 3: selector, the arm for 1, the arm for 0
    pub const MUX: u32 = 5;
    /// 2
    pub const AND: u32 = 6;
    /// 2
    pub const XOR: u32 = 7;
    /// 1
    pub const NOT: u32 = 8;
    /// a Program, then up to six operands, the most significant first
    pub const LUT: u32 = 9;
    /// 0 to 64, the last is bit 0
    pub const BUS: u32 = 10;
    /// a register: 4
    pub const FDRE: u32 = 11;
    /// a register: 4
    pub const FDSE: u32 = 12;
    /// a register: 4
    pub const FDPE: u32 = 13;
    /// a register: 4
    pub const FDCE: u32 = 14;
    /// 1, a Program: the index
    pub const ARG: u32 = 15;
    /// 1
    pub const CYCLE: u32 = 16;
}

/// An assignment byte: what drives the variable of its place.
pub mod byte {
    /// 0
    pub const LOW: u8 = 0;
    /// 1
    pub const HIGH: u8 = 1;
    /// nothing
    pub const UNDRIVEN: u8 = 2;
}

/// Words of a node
pub const NODE_WORDS: usize = 3;
/// Nodes of a list, at most
pub const MOST_NODES: usize = 4096;
/// Pool entries of a list, at most
pub const MOST_POOL: usize = 16384;
/// Variables, and so assignment bytes, at most
pub const VARIABLES: usize = 256;
/// Variables that a comparison tries and a separation declares, at most
pub const MOST_INPUTS: usize = 30;
/// Words of work space for a node
pub const WORK_PER_NODE: usize = 16;
/// Words of work space for a pool entry
pub const WORK_PER_POOL: usize = 2;
/// Words of an evaluation's output for a node
pub const PAIR_WORDS: usize = 2;

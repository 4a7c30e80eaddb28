//! The cases that are built in: drawings, tables, and the panel's signals.
use panel::List;

/// The panel's signals, by variable number; the last is a run signal.
pub const NAMES: [&str; 4] = ["stop button", "door open", "ozone alarm", "run request"];
pub const SIGNALS: u32 = NAMES.len() as u32;
pub const RUN_SIGNALS: u32 = 1 << 3;

/// A drawing, the table that is to be loaded for it, how much work space is lent, and what should come of it.
pub struct Case {
    pub title: &'static str,
    pub drawing: List<'static>,
    pub table: List<'static>,
    pub work_len: usize,
    pub loads: bool,
}

/// (AND (MUX v3 (NOR v0 v1) (AND (NOT v0) (NOT v1))) (NOT v2)): high where nothing asks for a stop. Whether the panel
/// runs or not makes no difference; it is drawn in two ways.
const DRAWING: List = List {
    nodes: &[
        3, 0, 0, // node 0: v0
        3, 1, 0, // node 1: v1
        3, 2, 0, // node 2: v2
        3, 3, 0, // node 3: v3
        4, 0, 2, // node 4: Nor of nodes 0 and 1
        8, 2, 1, // node 5: Not of node 0
        8, 3, 1, // node 6: Not of node 1
        6, 4, 2, // node 7: And of nodes 5 and 6
        5, 6, 3, // node 8: Mux, node 3 chooses node 4 (high) or node 7 (low)
        8, 9, 1, // node 9: Not of node 2
        6, 10, 2, // node 10, the root: And of nodes 8 and 9
    ],
    pool: &[0, 1, 0, 1, 5, 6, 3, 4, 7, 2, 8, 9],
};

/// (AND (MUX v3 (NOT v0) (NOR v0 v1)) (NOT v2)): while running, the door is not looked at.
const BYPASS: List = List {
    nodes: &[3, 0, 0, 3, 1, 0, 3, 2, 0, 3, 3, 0, 8, 0, 1, 4, 1, 2, 5, 3, 3, 8, 6, 1, 6, 7, 2],
    pool: &[0, 0, 1, 3, 4, 5, 2, 6, 7],
};

/// A lookup table of four operands, the run request first: the row number's bits are v3 v0 v1 and the last.
const fn table(program: u32, last: u32) -> [u32; 18] {
    [1, program, 0, 3, 3, 0, 3, 0, 0, 3, 1, 0, 3, last, 0, 9, 0, 5]
}

const TABLE_POOL: [u32; 5] = [0, 1, 2, 3, 4];

/// Healthy where all is low, whatever the run request is.
const RIGHT: [u32; 18] = table(1 << 0 | 1 << 8, 2);
/// Row 1 too: healthy in spite of the ozone alarm.
const WRONG_ROW: [u32; 18] = table(1 << 0 | 1 << 1 | 1 << 8, 2);
/// The last operand on a wire that the panel has not got.
const WRONG_WIRE: [u32; 18] = table(1 << 0 | 1 << 8, SIGNALS);
/// Row 16: a table of four operands ends at row 15.
const WRONG_PROGRAM: [u32; 18] = table(1 << 0 | 1 << 16, 2);
/// Row 10: healthy though the door is open, while running.
const CROSSED: [u32; 18] = table(1 << 0 | 1 << 8 | 1 << 10, 2);

const fn table_list(nodes: &'static [u32; 18]) -> List<'static> {
    List { nodes, pool: &TABLE_POOL }
}

const fn refused(title: &'static str, drawing: List<'static>, nodes: &'static [u32; 18]) -> Case {
    Case { title, drawing, table: table_list(nodes), work_len: usize::MAX, loads: false }
}

pub const CASES: [Case; 6] = [
    Case {
        title: "A table that keeps to its drawing",
        drawing: DRAWING,
        table: table_list(&RIGHT),
        work_len: usize::MAX,
        loads: true,
    },
    refused("A table with one row wrong", DRAWING, &WRONG_ROW),
    refused("A table on another wire", DRAWING, &WRONG_WIRE),
    refused("A table whose program has a row too many", DRAWING, &WRONG_PROGRAM),
    refused("A table that the run request bypasses, as its drawing does", BYPASS, &CROSSED),
    Case {
        title: "A panel that lends too little work space",
        drawing: DRAWING,
        table: table_list(&RIGHT),
        work_len: 1,
        loads: false,
    },
];

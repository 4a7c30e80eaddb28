//! The calls of libpanel_c.a, as include/panel.h declares them, over lent memory.
use crate::case::{Call, Case};
use crate::lent::{rubbish, Lent};
use crate::model::calls::{Outcome, Space};

mod calls {
    extern "C" {
        pub fn panel_verify(
            nodes: *const u32,
            nodes_len: usize,
            pool: *const u32,
            pool_len: usize,
            work: *mut u64,
            work_len: usize,
            answer: *mut u64,
        );
        pub fn panel_evaluate(
            nodes: *const u32,
            nodes_len: usize,
            pool: *const u32,
            pool_len: usize,
            bytes: *const u8,
            bytes_len: usize,
            work: *mut u64,
            work_len: usize,
            out: *mut u64,
            out_len: usize,
            answer: *mut u64,
        );
        pub fn panel_compare(
            nodes1: *const u32,
            nodes1_len: usize,
            pool1: *const u32,
            pool1_len: usize,
            nodes2: *const u32,
            nodes2_len: usize,
            pool2: *const u32,
            pool2_len: usize,
            work: *mut u64,
            work_len: usize,
            answer: *mut u64,
        );
        pub fn panel_separate(
            nodes: *const u32,
            nodes_len: usize,
            pool: *const u32,
            pool_len: usize,
            n: u32,
            marks: u32,
            work: *mut u64,
            work_len: usize,
            answer: *mut u64,
        );
        pub fn panel_canonicalize(
            nodes: *const u32,
            nodes_len: usize,
            pool: *const u32,
            pool_len: usize,
            out_nodes: *mut u32,
            out_nodes_len: usize,
            out_pool: *mut u32,
            out_pool_len: usize,
            work: *mut u64,
            work_len: usize,
            answer: *mut u64,
        );
        pub fn panel_eval_lut(p: u64, inputs: *const u8, inputs_len: usize, answer: *mut u64);
        pub fn panel_eval_lut_bv(p: u64, inputs: *const u8, inputs_len: usize, answer: *mut u64);
        pub fn panel_to_bitvec(p: u64, capacity: u64, answer: *mut u64);
        pub fn panel_remove_lsb_var(p: u64, k: u64, answer: *mut u64);
        pub fn panel_eval_lut_const_input(p: u64, msb: u64, v: u64, answer: *mut u64);
        pub fn panel_cofactors_in_msb(p: u64, k: u64, answer: *mut u64);
        pub fn panel_swap_pos(p: u64, k: u64, pos: u64, answer: *mut u64);
    }
}

/// All that is lent to one call.
struct Memory {
    nodes: [Lent<u32>; 2],
    pool: [Lent<u32>; 2],
    bytes: Lent<u8>,
    work: Lent<u64>,
    pairs: Lent<u64>,
    out_nodes: Lent<u32>,
    out_pool: Lent<u32>,
    answer: Lent<u64>,
}

impl Memory {
    fn lend(case: &Case, space: &Space) -> Memory {
        let [first, second] = &case.lists;
        Memory {
            nodes: [Lent::new("nodes", &first.nodes), Lent::new("nodes2", &second.nodes)],
            pool: [Lent::new("pool", &first.pool), Lent::new("pool2", &second.pool)],
            bytes: Lent::new("bytes", &case.bytes),
            work: Lent::new("work", &space.work),
            pairs: Lent::new("out", &space.pairs),
            out_nodes: Lent::new("out_nodes", &space.out_nodes),
            out_pool: Lent::new("out_pool", &space.out_pool),
            answer: Lent::new("answer", &rubbish(case.call.answer_words())),
        }
    }

    /// Inputs as they were, all else as the model says, no guard touched.
    fn faults(&self, case: &Case, expected: &Outcome) -> Vec<String> {
        let mut faults = Vec::new();
        self.answer.expect(&expected.answer, &mut faults);
        self.work.expect(&expected.space.work, &mut faults);
        self.pairs.expect(&expected.space.pairs, &mut faults);
        self.out_nodes.expect(&expected.space.out_nodes, &mut faults);
        self.out_pool.expect(&expected.space.out_pool, &mut faults);
        for (place, list) in case.lists.iter().enumerate() {
            self.nodes[place].expect(&list.nodes, &mut faults);
            self.pool[place].expect(&list.pool, &mut faults);
        }
        self.bytes.expect(&case.bytes, &mut faults);
        faults
    }
}

/// What the library answered and wrote, and in what it is not as expected.
pub struct Seen {
    pub answer: Vec<u64>,
    pub pairs: Vec<u64>,
    pub out_nodes: Vec<u32>,
    pub out_pool: Vec<u32>,
    pub faults: Vec<String>,
}

pub fn perform(case: &Case, space: &Space, expected: &Outcome) -> Seen {
    let mut memory = Memory::lend(case, space);
    // SAFETY: each pointer leads into a Vec of as many elements as the length beside it says, with guards around, and
    // none of what is written overlaps anything else.
    unsafe {
        if case.call.lists() == 0 {
            call_table(case, &mut memory);
        } else {
            call_list(case, &mut memory);
        }
    }
    let faults = memory.faults(case, expected);
    Seen {
        answer: memory.answer.content().to_vec(),
        pairs: memory.pairs.content().to_vec(),
        out_nodes: memory.out_nodes.content().to_vec(),
        out_pool: memory.out_pool.content().to_vec(),
        faults,
    }
}

unsafe fn call_table(case: &Case, lent: &mut Memory) {
    let [p, a, b] = case.numbers;
    let (inputs, count) = (lent.bytes.pointer(), lent.bytes.len());
    let answer = lent.answer.pointer();
    match case.call {
        Call::EvalLut => calls::panel_eval_lut(p, inputs, count, answer),
        Call::EvalLutBv => calls::panel_eval_lut_bv(p, inputs, count, answer),
        Call::ToBitvec => calls::panel_to_bitvec(p, a, answer),
        Call::RemoveLsbVar => calls::panel_remove_lsb_var(p, a, answer),
        Call::EvalLutConstInput => calls::panel_eval_lut_const_input(p, a, b, answer),
        Call::CofactorsInMsb => calls::panel_cofactors_in_msb(p, a, answer),
        _ => calls::panel_swap_pos(p, a, b, answer),
    }
}

unsafe fn call_list(case: &Case, lent: &mut Memory) {
    let [n, marks, _] = case.numbers.map(|number| number as u32);
    let [nodes, nodes2] = lent.nodes.each_mut().map(|part| (part.pointer().cast_const(), part.len()));
    let [pool, pool2] = lent.pool.each_mut().map(|part| (part.pointer().cast_const(), part.len()));
    let (nodes2, pool2) = if case.lent_once { (nodes, pool) } else { (nodes2, pool2) };
    let (work, words) = (lent.work.pointer(), lent.work.len());
    let answer = lent.answer.pointer();
    match case.call {
        Call::Verify => calls::panel_verify(nodes.0, nodes.1, pool.0, pool.1, work, words, answer),
        Call::Evaluate => {
            let (bytes, out) = ((lent.bytes.pointer(), lent.bytes.len()), (lent.pairs.pointer(), lent.pairs.len()));
            calls::panel_evaluate(nodes.0, nodes.1, pool.0, pool.1, bytes.0, bytes.1, work, words, out.0, out.1, answer)
        }
        Call::Compare => calls::panel_compare(
            nodes.0, nodes.1, pool.0, pool.1, nodes2.0, nodes2.1, pool2.0, pool2.1, work, words, answer,
        ),
        Call::Separate => calls::panel_separate(nodes.0, nodes.1, pool.0, pool.1, n, marks, work, words, answer),
        _ => {
            let (on, op) = (&mut lent.out_nodes, &mut lent.out_pool);
            let (on_len, op_len) = (on.len(), op.len());
            calls::panel_canonicalize(
                nodes.0,
                nodes.1,
                pool.0,
                pool.1,
                on.pointer(),
                on_len,
                op.pointer(),
                op_len,
                work,
                words,
                answer,
            )
        }
    }
}

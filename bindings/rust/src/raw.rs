//! The functions of include/panel.h as they stand there. A slice's pointer is never null in Rust, and what is lent to be
//! written overlaps nothing else, so that all that the header asks of its caller holds of any slices.

extern "C" {
    pub(crate) fn panel_verify(
        nodes: *const u32,
        nodes_len: usize,
        pool: *const u32,
        pool_len: usize,
        work: *mut u64,
        work_len: usize,
        answer: *mut [u64; 2],
    );

    pub(crate) fn panel_evaluate(
        nodes: *const u32,
        nodes_len: usize,
        pool: *const u32,
        pool_len: usize,
        bytes: *const u8,
        bytes_len: usize,
        work: *mut u64,
        work_len: usize,
        out: *mut u64,
        out_len: usize,
        answer: *mut [u64; 2],
    );

    pub(crate) fn panel_compare(
        nodes1: *const u32,
        nodes1_len: usize,
        pool1: *const u32,
        pool1_len: usize,
        nodes2: *const u32,
        nodes2_len: usize,
        pool2: *const u32,
        pool2_len: usize,
        work: *mut u64,
        work_len: usize,
        answer: *mut [u64; 10],
    );

    pub(crate) fn panel_separate(
        nodes: *const u32,
        nodes_len: usize,
        pool: *const u32,
        pool_len: usize,
        n: u32,
        marks: u32,
        work: *mut u64,
        work_len: usize,
        answer: *mut [u64; 10],
    );

    pub(crate) fn panel_canonicalize(
        nodes: *const u32,
        nodes_len: usize,
        pool: *const u32,
        pool_len: usize,
        out_nodes: *mut u32,
        out_nodes_len: usize,
        out_pool: *mut u32,
        out_pool_len: usize,
        work: *mut u64,
        work_len: usize,
        answer: *mut [u64; 4],
    );

    pub(crate) fn panel_eval_lut(p: u64, inputs: *const u8, inputs_len: usize, answer: *mut [u64; 3]);
    pub(crate) fn panel_eval_lut_bv(p: u64, inputs: *const u8, inputs_len: usize, answer: *mut [u64; 3]);
    pub(crate) fn panel_to_bitvec(p: u64, capacity: u64, answer: *mut [u64; 3]);
    pub(crate) fn panel_remove_lsb_var(p: u64, k: u64, answer: *mut [u64; 3]);
    pub(crate) fn panel_eval_lut_const_input(p: u64, msb: u64, v: u64, answer: *mut [u64; 3]);
    pub(crate) fn panel_cofactors_in_msb(p: u64, k: u64, answer: *mut [u64; 3]);
    pub(crate) fn panel_swap_pos(p: u64, k: u64, pos: u64, answer: *mut [u64; 3]);
}

//! The original Rust, answering cases from standard input.
//!
//! `supervisor` reads the cases and hands them to a worker process, this same program, so that a case that does not end
//! or takes the process down costs that case alone. `worker` answers them; `calls` and `tables` ask the original.

mod answers;
mod calls;
mod lists;
mod options;
mod supervisor;
mod tables;
mod turn;
mod worker;

use options::{Mode, Options};
use std::process::ExitCode;

const USAGE: &str = "\
usage: oracle CALL [--seconds S] [--stack MEGABYTES]
       oracle time CALL ROUNDS [--processor] [--seconds S] [--stack MEGABYTES]

Reads cases of decimal words from standard input, one a line, and answers each with a line, in order.

CALL           the line                                                        the answer
verify         words entries  nodes.. pool..                                   1 verified, 0 not
evaluate       words entries bytes  nodes.. pool.. bytes..                     state width value of each node
compare        words1 entries1 words2 entries2  nodes1.. pool1.. nodes2.. pool2..
                                     verdict index  state width value  state width value
canonicalise   words entries  nodes.. pool..                                   words entries  nodes.. pool..
separate       words entries n marks  nodes.. pool..                           judgement index and two answers
tables         ROUTINE and its arguments                                       three words, or error
               eval_lut P BIT..   eval_lut_bv P BIT..   to_bitvec P CAPACITY   remove_lsb_var P K
               eval_lut_const_input P MSB V   cofactors_in_msb P K   swap_pos P K POS

Instead of an answer: panic MESSAGE; late (not ended in S seconds, 5 if not said); abort (stack or memory ran out);
malformed (no such case). A MESSAGE that begins with 'rests on the stand-in' is not the original's.

time  adds ' | ' and the nanoseconds of the shortest of ROUNDS calls of the routine itself, by the wall's clock or, with
--processor, by the thread's own; S is 3600 if not said. Of evaluate it times the root's eval, of compare func_equiv.
The stack has 8 megabytes if not said, the memory 2 gigabytes.

example: (AND v0 v1) against v0, which differ at assignment 1
       echo '9 2 3 0  3 0 0 3 1 0 6 0 2  0 1  3 0 0' | oracle compare
       1 1 0 1 0 0 1 1
";

fn main() -> ExitCode {
    let words: Vec<String> = std::env::args().skip(1).collect();
    if words.is_empty() || words.iter().any(|word| word == "--help" || word == "-h") {
        print!("{USAGE}");
        return ExitCode::SUCCESS;
    }
    let ended = match Options::read(&words) {
        Err(message) => Err(format!("{message}\n\n{USAGE}")),
        Ok(options) if options.mode == Mode::Worker => worker::work(&options),
        Ok(options) => supervisor::run(&options),
    };
    match ended {
        Ok(()) => ExitCode::SUCCESS,
        Err(message) => {
            eprintln!("oracle: {message}");
            ExitCode::FAILURE
        }
    }
}

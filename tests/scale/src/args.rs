//! The command line.
use crate::case::Call;
use crate::sweep::Plan;

pub const USAGE: &str = "\
usage: tests/scale/run [--calls N] [--seed S] [--only CALL] [--first] [--random] [--slip NAME]
       tests/scale/run --oracle PROGRAM [--calls N] [--seed S] [--only CALL]
       tests/scale/run --replay FILE
       tests/scale/run --slips | --damaged

Calls of target/staticlib/libpanel_c.a (or of the folder in PANEL_LIB), each held against a model of document 01: answer,
work space, outputs, inputs and what stands beside them. The status is 0 only if none differs and all that a call can
answer was answered.

  --calls N         how many calls in all; the boundary cases are all made, however few are asked (1200000)
  --seed S          draws other cases (1)
  --only CALL       verify, evaluate, compare, separate, canonicalize, eval_lut, eval_lut_bv, to_bitvec, remove_lsb_var,
                    eval_lut_const_input, cofactors_in_msb or swap_pos
  --first           end at the first case that differs
  --random          without the boundary cases, and without asking that every answer was given
  --oracle PROGRAM  hold the answers against the original Rust's (oracle/README.md), 300000 cases unless --calls is given
  --replay FILE     the cases of a file, a line each, as they are printed where one differs
  --slip NAME       with a slip put into the model on purpose; --slip list names them
  --slips           every slip in turn: a short run must find each
  --damaged         every damage of bindings/c/damaged.c in turn: a short run must find each
";

pub enum Task {
    Sweep,
    Replay(String),
    Oracle(String),
    Help,
    ListSlips,
}

pub struct Arguments {
    pub task: Task,
    pub plan: Plan,
    pub slip: Option<String>,
}

const CALLS: u64 = 1_200_000;
const ORACLE_CALLS: u64 = 300_000;

pub fn read(words: impl Iterator<Item = String>) -> Result<Arguments, String> {
    let plan = Plan { calls: 0, seed: 1, only: None, boundary: true, first: false };
    let mut arguments = Arguments { task: Task::Sweep, plan, slip: None };
    let mut words = words;
    let mut calls = None;
    while let Some(word) = words.next() {
        if is_switch(&word, &mut arguments) {
            continue;
        }
        let value = words.next().ok_or(format!("'{word}' is no option, or something must follow it"))?;
        match word.as_str() {
            "--calls" => calls = Some(number(&value)?),
            "--seed" => arguments.plan.seed = number(&value)?,
            "--only" => arguments.plan.only = Some(Call::named(&value).ok_or(format!("'{value}' is no call"))?),
            "--slip" if value == "list" => arguments.task = Task::ListSlips,
            "--slip" => arguments.slip = Some(value),
            "--replay" => arguments.task = Task::Replay(value),
            "--oracle" => arguments.task = Task::Oracle(value),
            _ => return Err(format!("'{word}' is no option")),
        }
    }
    let usual = if matches!(arguments.task, Task::Oracle(_)) { ORACLE_CALLS } else { CALLS };
    arguments.plan.calls = calls.unwrap_or(usual);
    Ok(arguments)
}

/// A word that nothing follows.
fn is_switch(word: &str, arguments: &mut Arguments) -> bool {
    match word {
        "--first" => arguments.plan.first = true,
        "--random" => arguments.plan.boundary = false,
        "--help" | "-h" => arguments.task = Task::Help,
        _ => return false,
    }
    true
}

fn number(text: &str) -> Result<u64, String> {
    text.parse().map_err(|_| format!("'{text}' is no number"))
}

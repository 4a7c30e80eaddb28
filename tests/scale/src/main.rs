//! Over a million calls of libpanel_c.a, each held against a model of document 01: tests/scale/README.md.
mod args;
mod case;
mod draw;
mod lent;
mod library;
mod model;
mod oracle;
mod shrink;
mod slips;
mod sweep;
mod tally;
mod trial;

use args::{Arguments, Task, USAGE};
use case::Case;
use std::process::ExitCode;
use std::time::Instant;

fn main() -> ExitCode {
    let arguments = match args::read(std::env::args().skip(1)) {
        Ok(arguments) => arguments,
        Err(message) => return failed(&format!("{message}\n\n{USAGE}")),
    };
    if let Some(Err(message)) = arguments.slip.as_deref().map(slips::choose) {
        return failed(&message);
    }
    // The model goes down a tree of 4,096 nodes by recursion.
    let worker = std::thread::Builder::new().stack_size(256 << 20).spawn(move || start(&arguments));
    let ended = worker.map(|worker| worker.join());
    match ended {
        Ok(Ok(is_well)) => ExitCode::from(u8::from(!is_well)),
        _ => failed("the run did not end"),
    }
}

/// Status 2: nothing was found out.
fn failed(message: &str) -> ExitCode {
    eprintln!("{message}");
    ExitCode::from(2)
}

fn start(arguments: &Arguments) -> bool {
    match &arguments.task {
        Task::Help => print!("{USAGE}"),
        Task::ListSlips => slips::SLIPS.iter().for_each(|(_, name, what)| println!("{name}: {what}")),
        Task::Sweep => return sweep_all(arguments),
        Task::Replay(file) => return replay(file),
        Task::Oracle(program) => return ask_oracle(program, arguments),
    }
    true
}

// ---- the sweep

fn sweep_all(arguments: &Arguments) -> bool {
    let started = Instant::now();
    let swept = sweep::sweep(&arguments.plan);
    print!("{}", swept.tally.table());
    let mut missing = swept.tally.missing(|call| arguments.plan.asks(call));
    let is_whole = arguments.plan.boundary && !(arguments.plan.first && swept.tally.differing() > 0);
    if !is_whole {
        missing.clear();
    }
    missing.iter().for_each(|line| println!("MISSING: {line}"));
    for (_, case, faults) in &swept.differing {
        report(case, faults);
    }
    let (total, differing) = (swept.tally.total(), swept.tally.differing());
    let seconds = started.elapsed().as_secs_f64();
    println!("{total} calls, {differing} differ, {} answers missing; {seconds:.0} s", missing.len());
    differing == 0 && missing.is_empty()
}

/// A differing case as a line that can be replayed, and a smaller one that differs too.
fn report(case: &Case, faults: &[String]) {
    println!("# differs: {}", faults.join("; "));
    println!("{}", case::write(case));
    let smaller = shrink::shrink(case);
    if smaller != *case {
        println!("# smaller: {}", trial::try_case(&smaller).faults.join("; "));
        println!("{}", case::write(&smaller));
    }
}

fn ask_oracle(program: &str, arguments: &Arguments) -> bool {
    oracle::compare_with(program, &arguments.plan).unwrap_or_else(|message| {
        println!("FAILED: {message}");
        false
    })
}

// ---- a replay

fn replay(file: &str) -> bool {
    let text = match std::fs::read_to_string(file) {
        Ok(text) => text,
        Err(error) => {
            println!("{file}: {error}");
            return false;
        }
    };
    let lines = text.lines().filter(|line| !line.is_empty() && !line.starts_with('#'));
    let tried: Vec<bool> = lines.map(replay_line).collect();
    println!("{} cases, {} differ or can't be read", tried.len(), tried.iter().filter(|&&is_well| !is_well).count());
    !tried.is_empty() && tried.iter().all(|&is_well| is_well)
}

fn replay_line(line: &str) -> bool {
    let case = match case::read(line) {
        Ok(case) => case,
        Err(message) => {
            println!("{message}: {line}");
            return false;
        }
    };
    let seen = trial::try_case(&case);
    println!("{}\n  answer {:?}; {}", case::write(&case), seen.answer, verdict(&seen.faults));
    seen.faults.is_empty()
}

fn verdict(faults: &[String]) -> String {
    if faults.is_empty() {
        return "as the model says".into();
    }
    format!("differs: {}", faults.join("; "))
}

//! The oracle's process: cases in, a line each; answers out, in order (oracle/README.md).
use std::io::{BufRead, BufReader, Write};
use std::process::{Command, Stdio};
use std::thread;

/// Seconds after which the oracle gives a case up.
const SECONDS: &str = "2";

/// An answer for each line.
pub fn ask(program: &str, command: &str, lines: &[String]) -> Result<Vec<String>, String> {
    let started = Command::new(program)
        .args([command, "--seconds", SECONDS])
        .stdin(Stdio::piped())
        .stdout(Stdio::piped())
        .spawn();
    let mut child = started.map_err(|error| format!("{program}: {error}"))?;
    let (mut input, output) = (child.stdin.take().expect("piped"), child.stdout.take().expect("piped"));
    let answers = thread::scope(|scope| {
        // A line that can't be written shows below, as an answer that is missing.
        scope.spawn(move || lines.iter().try_for_each(|line| writeln!(input, "{line}")));
        BufReader::new(output).lines().collect::<Result<Vec<String>, _>>()
    });
    let status = child.wait().map_err(|error| format!("{program}: {error}"))?;
    let answers = answers.map_err(|error| format!("{program}: {error}"))?;
    if answers.len() != lines.len() || !status.success() {
        return Err(format!("{program} {command}: {} answers to {} cases, {status}", answers.len(), lines.len()));
    }
    Ok(answers)
}

//! The worker: answers its standard input line by line, a panic included. What takes it down, or takes too long, is its
//! supervisor's to see.

use crate::options::Options;
use crate::turn::Turn;
use std::any::Any;
use std::io::{BufRead, Write};
use std::panic::{AssertUnwindSafe, catch_unwind};
use std::thread;

/// Runs on a thread of its own, so that the stack has the size that was asked.
pub fn work(options: &Options) -> Result<(), String> {
    std::panic::set_hook(Box::new(|_| ()));
    let options = options.clone();
    let answering = thread::Builder::new().stack_size(options.megabytes << 20).spawn(move || answer_all(&options));
    let ended = answering.map_err(|error| error.to_string())?.join();
    ended.map_err(|_| "the worker panicked".to_string())?.map_err(|error| error.to_string())
}

fn answer_all(options: &Options) -> std::io::Result<()> {
    let mut out = std::io::stdout().lock();
    for line in std::io::stdin().lock().lines() {
        // One write for each case: the supervisor's clock runs from one answer to the next.
        out.write_all((answer(&line?, options) + "\n").as_bytes())?;
        out.flush()?;
    }
    Ok(())
}

fn answer(line: &str, options: &Options) -> String {
    let mut turn = Turn::new(options);
    match catch_unwind(AssertUnwindSafe(|| options.call.answer(line, &mut turn))) {
        Ok(Ok(answer)) => turn.told(answer),
        Ok(Err(_)) => "malformed".to_string(),
        Err(thrown) => format!("panic {}", message_of(thrown.as_ref())),
    }
}

fn message_of(thrown: &(dyn Any + Send)) -> String {
    let text = thrown.downcast_ref::<String>().map(String::as_str);
    let text = text.or_else(|| thrown.downcast_ref::<&str>().copied());
    text.unwrap_or("without a message").split_whitespace().collect::<Vec<_>>().join(" ")
}

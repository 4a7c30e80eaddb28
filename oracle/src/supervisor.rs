//! Hands the cases of standard input to a worker process and prints its answers. A worker that is late or dies is
//! replaced; the case that it had is answered for it, and the new one goes on behind that case.
//!
//! Cases are sent ahead of their answers, at most `AHEAD`, so that no case waits for a process to be woken. The clock
//! runs from one answer to the next.

use crate::options::Options;
use std::collections::VecDeque;
use std::io::{BufRead, BufReader, Write};
use std::process::{Child, Command, Stdio};
use std::sync::mpsc::{Receiver, RecvTimeoutError, Sender, SyncSender, channel, sync_channel};
use std::thread;
use std::time::{Duration, Instant};

const AHEAD: usize = 512;
const KILOBYTES: &str = "2097152";

/// What the supervisor's loop is told; a worker is known by its number.
enum Event {
    Case(String),
    NoMoreCases,
    Answer(u64, String),
    Gone(u64),
}

struct Worker {
    number: u64,
    process: Child,
    cases: Sender<String>,
}

impl Worker {
    /// Starts a worker whose answers come as events. Its memory is bounded, so that it can't take the machine's.
    fn start(number: u64, options: &Options, events: &Sender<Event>) -> Result<Self, String> {
        let program = std::env::current_exe().map_err(|error| error.to_string())?;
        let mut process = Command::new("sh")
            .arg("-c")
            .arg(format!("ulimit -v {KILOBYTES} && exec \"$0\" \"$@\""))
            .arg(program)
            .args(options.for_worker())
            .stdin(Stdio::piped())
            .stdout(Stdio::piped())
            .stderr(Stdio::null())
            .spawn()
            .map_err(|error| format!("a worker could not be started: {error}"))?;
        let (input, output) = (process.stdin.take(), process.stdout.take());
        let (input, output) = input.zip(output).ok_or("a worker without pipes")?;
        let (cases, sent) = channel();
        let events = events.clone();
        thread::spawn(move || send(sent, input));
        thread::spawn(move || receive(number, BufReader::new(output), events));
        Ok(Self { number, process, cases })
    }

    /// A worker that is gone takes no case; that it is gone is an event of its own.
    fn hand(&self, case: &str) {
        let _ = self.cases.send(case.to_string());
    }

    fn end(mut self) {
        let _ = self.process.kill();
        let _ = self.process.wait();
    }
}

/// On a thread of its own, since a worker that is busy reads nothing.
fn send(cases: Receiver<String>, mut input: impl Write) {
    while let Ok(mut batch) = cases.recv() {
        batch += "\n";
        while let Ok(more) = cases.try_recv() {
            batch += &more;
            batch += "\n";
        }
        if input.write_all(batch.as_bytes()).is_err() {
            return;
        }
    }
}

fn receive(number: u64, output: impl BufRead, events: Sender<Event>) {
    for answer in output.lines().map_while(Result::ok) {
        let _ = events.send(Event::Answer(number, answer));
    }
    let _ = events.send(Event::Gone(number));
}

/// Reads ahead as far as there are places; a place is free again when its case is answered.
fn read(places: SyncSender<()>, events: Sender<Event>) {
    for line in std::io::stdin().lock().lines().map_while(Result::ok) {
        if places.send(()).is_err() || events.send(Event::Case(line)).is_err() {
            return;
        }
    }
    let _ = events.send(Event::NoMoreCases);
}

struct Supervisor<'a> {
    options: &'a Options,
    events: Sender<Event>,
    places: Receiver<()>,
    worker: Worker,
    /// Handed to the worker and not yet answered.
    pending: VecDeque<String>,
    more: bool,
    since: Instant,
}

pub fn run(options: &Options) -> Result<(), String> {
    let (events, told) = channel();
    let (taken, places) = sync_channel(AHEAD);
    let reader = events.clone();
    thread::spawn(move || read(taken, reader));
    let worker = Worker::start(0, options, &events)?;
    let since = Instant::now();
    let mut supervisor = Supervisor { options, events, places, worker, pending: VecDeque::new(), more: true, since };
    let ended = supervisor.go_on(&told);
    supervisor.worker.end();
    ended
}

impl Supervisor<'_> {
    fn go_on(&mut self, told: &Receiver<Event>) -> Result<(), String> {
        while self.more || !self.pending.is_empty() {
            match told.recv_timeout(self.wait()) {
                Ok(event) => self.take(event)?,
                Err(RecvTimeoutError::Timeout) if self.is_late() => self.replace("late")?,
                Err(RecvTimeoutError::Timeout) => (),
                Err(RecvTimeoutError::Disconnected) => return Err("no more events".to_string()),
            }
        }
        Ok(())
    }

    fn wait(&self) -> Duration {
        self.options.longest().saturating_sub(self.since.elapsed()).max(Duration::from_millis(1))
    }

    fn is_late(&self) -> bool {
        !self.pending.is_empty() && self.since.elapsed() >= self.options.longest()
    }

    fn take(&mut self, event: Event) -> Result<(), String> {
        match event {
            Event::Case(line) => self.hand(line),
            Event::NoMoreCases => self.more = false,
            Event::Answer(number, answer) if number == self.worker.number => self.answered(&answer)?,
            Event::Gone(number) if number == self.worker.number => self.replace("abort")?,
            // of a worker that was replaced
            Event::Answer(..) | Event::Gone(_) => (),
        }
        Ok(())
    }

    fn hand(&mut self, line: String) {
        if self.pending.is_empty() {
            self.since = Instant::now();
        }
        self.worker.hand(&line);
        self.pending.push_back(line);
    }

    fn answered(&mut self, answer: &str) -> Result<(), String> {
        self.pending.pop_front().ok_or("an answer without a case")?;
        let _ = self.places.recv();
        self.since = Instant::now();
        let mut out = std::io::stdout().lock();
        writeln!(out, "{answer}").map_err(|error| format!("standard output: {error}"))
    }

    /// Answers the first case for the worker and starts another on the rest.
    fn replace(&mut self, answer: &str) -> Result<(), String> {
        if self.pending.is_empty() {
            return Err("the worker ended without a case".to_string());
        }
        let next = Worker::start(self.worker.number + 1, self.options, &self.events)?;
        std::mem::replace(&mut self.worker, next).end();
        self.answered(answer)?;
        for case in &self.pending {
            self.worker.hand(case);
        }
        Ok(())
    }
}

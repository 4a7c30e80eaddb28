//! The command line: which call, and how long and with how much stack a case may run.

use crate::calls::Call;
use std::str::FromStr;
use std::time::Duration;

#[derive(Debug, Clone, Copy, PartialEq, Eq)]
pub enum Mode {
    Answer,
    Time,
    /// What the program starts itself as; not for users.
    Worker,
}

#[derive(Debug, Clone)]
pub struct Options {
    pub mode: Mode,
    pub call: Call,
    /// How often the routine is timed for one case; 0 where it is not.
    pub rounds: u64,
    pub seconds: f64,
    pub megabytes: usize,
    /// Time by the processor's clock, which stands still while others run, and not by the wall's.
    pub processor: bool,
}

impl Options {
    pub fn read(words: &[String]) -> Result<Self, String> {
        let mut words = words.iter().map(String::as_str);
        let first = words.next().unwrap_or("");
        let mode = match first {
            "time" => Mode::Time,
            "worker" => Mode::Worker,
            _ => Mode::Answer,
        };
        let named = if mode == Mode::Answer { first } else { words.next().unwrap_or("") };
        let call = Call::named(named).ok_or_else(|| format!("there is no call '{named}'"))?;
        let rounds = if mode == Mode::Answer { 0 } else { number(words.next(), "ROUNDS")? };
        let seconds = if mode == Mode::Time { 3600.0 } else { 5.0 };
        let mut options = Self { mode, call, rounds, seconds, megabytes: 8, processor: false };
        while let Some(word) = words.next() {
            match word {
                "--seconds" => options.seconds = number(words.next(), word)?,
                "--stack" => options.megabytes = number(words.next(), word)?,
                "--processor" if mode != Mode::Answer => options.processor = true,
                _ => return Err(format!("'{word}' is not known")),
            }
        }
        options.tested()
    }

    fn tested(self) -> Result<Self, String> {
        let time = Duration::try_from_secs_f64(self.seconds);
        if !time.is_ok_and(|time| !time.is_zero()) {
            return Err("--seconds is a number above 0".to_string());
        }
        if self.mode == Mode::Time && self.rounds == 0 {
            return Err("ROUNDS is at least 1".to_string());
        }
        if !(1..=1024).contains(&self.megabytes) {
            return Err("--stack is 1 to 1024".to_string());
        }
        Ok(self)
    }

    pub fn longest(&self) -> Duration {
        Duration::from_secs_f64(self.seconds)
    }

    /// The arguments of a worker that answers as these options say.
    pub fn for_worker(&self) -> Vec<String> {
        let numbers = [self.rounds.to_string(), self.seconds.to_string(), self.megabytes.to_string()];
        let [rounds, seconds, megabytes] = numbers.each_ref().map(String::as_str);
        let words = ["worker", self.call.name(), rounds, "--seconds", seconds, "--stack", megabytes];
        let clock = if self.processor { Some("--processor") } else { None };
        words.into_iter().chain(clock).map(str::to_string).collect()
    }
}

fn number<T: FromStr>(word: Option<&str>, name: &str) -> Result<T, String> {
    word.and_then(|word| word.parse().ok()).ok_or_else(|| format!("{name} wants a number"))
}

//! The library's answers held against those of the original Rust, which another program gives.
mod ask;
mod judge;
mod questions;

use crate::case::{self, Call, Case};
use crate::draw::rng::Rng;
use crate::draw::{boundary, random_case};
use crate::sweep::Plan;
use crate::trial::try_case;
use judge::{judge, Judged};
use questions::{question, Question, COMMANDS};
use std::collections::BTreeMap;
use std::thread;

const BATCH: usize = 20_000;

/// How often, and the smallest case with the Rust's answer.
type Count = (u64, Option<(Case, String)>);

#[derive(Default)]
struct Counts {
    by_call: BTreeMap<(Call, Judged), Count>,
    asked: u64,
    /// Cases that the model answers otherwise than the library.
    faults: u64,
}

/// As many cases as planned, drawn as in the sweep; true if all that the Rust answers is the library's answer too, but for
/// what docs/DIFFERENCES.md names.
pub fn compare_with(program: &str, plan: &Plan) -> Result<bool, String> {
    let mut counts = Counts::default();
    let mut batch = 0;
    while counts.asked < plan.calls {
        let questions = draw_batch(plan, batch, &mut counts);
        for group in ask_all(program, questions)? {
            group.into_iter().for_each(|(question, answer)| counts.count(question, answer));
        }
        batch += 1;
        eprintln!("  {} cases asked, {} differ", counts.asked, counts.differing());
    }
    counts.report();
    Ok(counts.differing() == 0 && counts.faults == 0)
}

/// The boundary cases are the first batch.
fn draw_batch(plan: &Plan, batch: u64, counts: &mut Counts) -> Vec<Question> {
    if batch == 0 && plan.boundary {
        let cases = boundary::cases(|call| plan.asks(call));
        return cases.iter().filter_map(|case| counts.question(case)).collect();
    }
    let mut rng = Rng::new(plan.seed, !batch);
    let mut questions = Vec::new();
    while questions.len() < BATCH.min(plan.calls as usize) {
        let call = plan.pick(&mut rng);
        questions.extend(counts.question(&random_case(&mut rng, call)));
    }
    questions
}

type Answered = Vec<(Question, String)>;

/// Each command's questions in a process of its own.
fn ask_all(program: &str, questions: Vec<Question>) -> Result<Vec<Answered>, String> {
    let mut groups: BTreeMap<&str, Vec<Question>> = COMMANDS.map(|command| (command, Vec::new())).into();
    for question in questions {
        groups.entry(question.command).or_default().push(question);
    }
    thread::scope(|scope| {
        let ask = |(command, group)| scope.spawn(move || ask_group(program, command, group));
        let started: Vec<_> = groups.into_iter().map(ask).collect();
        started.into_iter().map(|thread| thread.join().expect("asking does not panic")).collect()
    })
}

fn ask_group(program: &str, command: &str, group: Vec<Question>) -> Result<Answered, String> {
    let lines: Vec<String> = group.iter().map(|question| question.line.clone()).collect();
    Ok(group.into_iter().zip(ask::ask(program, command, &lines)?).collect())
}

impl Counts {
    /// The case is tried against the model too.
    fn question(&mut self, case: &Case) -> Option<Question> {
        let seen = try_case(case);
        self.faults += u64::from(!seen.faults.is_empty());
        question(case, &seen)
    }

    fn count(&mut self, question: Question, answer: String) {
        self.asked += 1;
        let judged = judge(&question, &answer);
        let (times, smallest) = self.by_call.entry((question.case.call, judged)).or_default();
        *times += 1;
        let is_smaller = smallest.as_ref().map_or(true, |(case, _)| question.case.size() < case.size());
        if judged != Judged::Alike && is_smaller {
            *smallest = Some((question.case, answer));
        }
    }

    fn differing(&self) -> u64 {
        let counted = self.by_call.iter().filter(|((call, judged), _)| !is_known(*call, *judged));
        counted.map(|(_, (times, _))| times).sum()
    }

    fn report(&self) {
        for ((call, judged), (times, smallest)) in &self.by_call {
            println!("{}: {judged:?} {times}", call.name());
            if let Some((case, answer)) = smallest {
                println!("  smallest: {}\n  the Rust: {answer}", case::write(case));
            }
        }
        println!("{} cases asked, {} differ beyond docs/DIFFERENCES.md", self.asked, self.differing());
        println!("{} of the cases drawn differ from the model", self.faults);
    }
}

/// What docs/DIFFERENCES.md names: the canonicaliser's four causes, one routine that panics at its highest operand, and
/// walks along paths that don't end in time.
fn is_known(call: Call, judged: Judged) -> bool {
    match judged {
        Judged::Alike | Judged::Late | Judged::RestsOnStandIn | Judged::PanicsAtMsb5 => true,
        Judged::Panics => call == Call::Canonicalize,
        Judged::SameValues | Judged::AnotherValue | Judged::NoSoundList => true,
        Judged::Differs | Judged::Aborts | Judged::NotTaken => false,
    }
}

//! Many cases, by chunks on both cores. Which chunk a case stands in decides how it is drawn, and no thread does, so a
//! seed gives the same cases in every run.
use crate::case::{Call, Case, CALLS};
use crate::draw::rng::Rng;
use crate::draw::{boundary, random_case};
use crate::tally::Tally;
use crate::trial::try_case;
use std::sync::atomic::{AtomicBool, AtomicU64, AtomicUsize, Ordering};
use std::sync::Mutex;
use std::thread;

const CHUNK: u64 = 500;
/// Lists are walked by recursion in the model, 4,096 deep.
const STACK: usize = 256 << 20;
const THREADS: usize = 2;
/// Differing cases that are kept.
const KEPT: usize = 5;

/// Of 1,000 random cases, how many are of each call: lists first, the seven cheap routines 210 together.
const SHARES: [usize; 12] = [150, 180, 170, 150, 140, 30, 30, 30, 30, 30, 30, 30];

#[derive(Clone)]
pub struct Plan {
    pub calls: u64,
    pub seed: u64,
    pub only: Option<Call>,
    /// Whether the boundary cases come first.
    pub boundary: bool,
    /// End as soon as one case differs.
    pub first: bool,
}

impl Plan {
    pub fn asks(&self, call: Call) -> bool {
        self.only.map_or(true, |only| only == call)
    }

    /// The call of the next random case.
    pub fn pick(&self, rng: &mut Rng) -> Call {
        self.only.unwrap_or_else(|| CALLS[rng.weighted(&SHARES)])
    }
}

/// A case that differs, with where it stands, so that the first in order is shown first.
pub type Differing = (u64, Case, Vec<String>);

pub struct Swept {
    pub tally: Tally,
    pub differing: Vec<Differing>,
}

struct Sweep<'a> {
    plan: &'a Plan,
    boundary: Vec<Case>,
    chunks: u64,
    next: AtomicU64,
    done: AtomicUsize,
    stop: AtomicBool,
    swept: Mutex<Swept>,
}

/// The boundary cases, and random ones until there are as many as planned.
pub fn sweep(plan: &Plan) -> Swept {
    let boundary = if plan.boundary { boundary::cases(|call| plan.asks(call)) } else { Vec::new() };
    let total = plan.calls.max(boundary.len() as u64);
    eprintln!("{} boundary cases, {} random ones, seed {}", boundary.len(), total - boundary.len() as u64, plan.seed);
    let sweep = Sweep {
        plan,
        boundary,
        chunks: total.div_ceil(CHUNK),
        next: AtomicU64::new(0),
        done: AtomicUsize::new(0),
        stop: AtomicBool::new(false),
        swept: Mutex::new(Swept { tally: Tally::default(), differing: Vec::new() }),
    };
    thread::scope(|scope| {
        for _ in 0..THREADS {
            let started = thread::Builder::new().stack_size(STACK).spawn_scoped(scope, || sweep.work(total));
            started.expect("a thread with a large stack can be started");
        }
    });
    let mut swept = sweep.swept.into_inner().expect("no thread panicked");
    swept.differing.sort_by_key(|(place, _, _)| *place);
    swept
}

impl Sweep<'_> {
    fn work(&self, total: u64) {
        loop {
            let chunk = self.next.fetch_add(1, Ordering::Relaxed);
            if chunk >= self.chunks || self.stop.load(Ordering::Relaxed) {
                return;
            }
            let (tally, differing) = self.try_chunk(chunk, total.min((chunk + 1) * CHUNK));
            self.keep(tally, differing);
        }
    }

    fn try_chunk(&self, chunk: u64, end: u64) -> (Tally, Vec<Differing>) {
        let mut rng = Rng::new(self.plan.seed, chunk);
        let (mut tally, mut differing) = (Tally::default(), Vec::new());
        for place in chunk * CHUNK..end {
            let case = self.case(place, &mut rng);
            let seen = try_case(&case);
            tally.count(&case, &seen);
            if !seen.faults.is_empty() && differing.len() < KEPT {
                differing.push((place, case, seen.faults));
            }
            if self.stop.load(Ordering::Relaxed) || (self.plan.first && !differing.is_empty()) {
                break;
            }
        }
        (tally, differing)
    }

    fn case(&self, place: u64, rng: &mut Rng) -> Case {
        match self.boundary.get(place as usize) {
            Some(case) => case.clone(),
            None => {
                let call = self.plan.pick(rng);
                random_case(rng, call)
            }
        }
    }

    fn keep(&self, tally: Tally, differing: Vec<Differing>) {
        if self.plan.first && !differing.is_empty() {
            self.stop.store(true, Ordering::Relaxed);
        }
        let mut swept = self.swept.lock().expect("no thread panicked");
        swept.tally.join(tally);
        swept.differing.extend(differing);
        swept.differing.sort_by_key(|(place, _, _)| *place);
        swept.differing.truncate(KEPT);
        let done = self.done.fetch_add(1, Ordering::Relaxed) + 1;
        if done % 100 == 0 {
            eprintln!("  {} calls, {} differ", swept.tally.total(), swept.tally.differing());
        }
    }
}

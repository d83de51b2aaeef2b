//! Generated texts, or pairs of a base and a job, run in parallel.

use std::sync::atomic::{AtomicU64, Ordering};
use std::sync::mpsc::{self, RecvTimeoutError, Sender};
use std::sync::{Arc, Mutex};
use std::thread;
use std::time::{Duration, Instant};

use second::generate::pairs::Pair;
use second::generate::Sample;
use second::{check, check_job, Answer};

use crate::coverage::Coverage;
use crate::printed;
use crate::sides::Sides;

/// How often the workers are looked at.
const LOOK: Duration = Duration::from_millis(100);

/// What is run: a text, or a base and a job. Below both are called texts.
pub trait Case: Send + 'static {
    /// What a set of them covers.
    type Coverage: Default;
    /// The answer, where the generator knows it.
    fn expected(&self) -> Option<&Answer>;
    /// The second checker's answer.
    fn second(&self) -> Answer;
    /// Adds it, with its answer, to what is covered.
    fn count(&self, answer: &Answer, coverage: &mut Self::Coverage);
}

impl Case for Sample {
    type Coverage = Coverage;

    fn expected(&self) -> Option<&Answer> {
        self.expected.as_ref()
    }

    fn second(&self) -> Answer {
        check(&self.text)
    }

    fn count(&self, answer: &Answer, coverage: &mut Coverage) {
        coverage.add_as(&self.text, answer.verdict);
    }
}

impl Case for Pair {
    type Coverage = Sides;

    fn expected(&self) -> Option<&Answer> {
        self.expected.as_ref()
    }

    fn second(&self) -> Answer {
        check_job(&self.base, &self.job)
    }

    fn count(&self, answer: &Answer, coverage: &mut Sides) {
        coverage.add(&self.base, &self.job, answer);
    }
}

/// Which texts are run, and how.
#[derive(Clone, Copy, Debug)]
pub struct Run {
    /// The first seed, and how many.
    pub seed: u64,
    pub count: u64,
    /// How many texts are run at a time.
    pub workers: usize,
    /// How long it may take to make a text and to check it by the second
    /// checker.
    pub limit: Duration,
}

/// A text on which the program, the second checker and what the generator
/// expects, where it does, are not all the same.
#[derive(Clone, Debug, PartialEq, Eq)]
pub struct Difference {
    pub seed: u64,
    pub program: Vec<u8>,
    pub second: Vec<u8>,
    pub expected: Option<Vec<u8>>,
}

/// What came of a run.
#[derive(Debug, Default)]
pub struct Outcome<C> {
    /// How many texts were run.
    pub texts: u64,
    /// In the order of the seeds.
    pub differences: Vec<Difference>,
    /// Of all the texts, by the second checker's answer.
    pub coverage: C,
    /// A seed whose text wasn't made and checked in time; the run ends there.
    pub late: Option<u64>,
}

/// What came of one text.
struct Result<C> {
    case: C,
    answer: Answer,
    difference: Option<Difference>,
}

/// What a worker is at: the seed of a text that is being made, and since when.
type Work = Arc<Mutex<Option<(u64, Instant)>>>;

/// Holds a program against the second checker, and both against what the
/// generator expects, on the texts of some seeds.
pub fn compare<C, G, P>(generate: G, program: P, run: Run) -> Outcome<C::Coverage>
where
    C: Case,
    G: Fn(u64) -> C + Send + Sync + 'static,
    P: Fn(&C) -> Vec<u8> + Send + Sync + 'static,
{
    let next = Arc::new(AtomicU64::new(0));
    let each = Arc::new(move |seed, work: &Work| one(&generate, &program, seed, work));
    let (sender, receiver) = mpsc::channel();
    let works: Vec<Work> = (0..run.workers).map(|_| Work::default()).collect();
    for work in &works {
        let (next, each, work, sender) = (next.clone(), each.clone(), work.clone(), sender.clone());
        // A worker that is late can't be ended, but with the program.
        thread::spawn(move || run_texts(run, &next, |seed| each(seed, &work), &sender));
    }
    drop(sender);

    let mut outcome = Outcome::default();
    let mut looked = Instant::now();
    loop {
        match receiver.recv_timeout(LOOK) {
            Ok(result) => {
                outcome.texts += 1;
                result.case.count(&result.answer, &mut outcome.coverage);
                outcome.differences.extend(result.difference);
            }
            Err(RecvTimeoutError::Timeout) => {}
            Err(RecvTimeoutError::Disconnected) => break,
        }
        if looked.elapsed() >= LOOK {
            looked = Instant::now();
            outcome.late = works.iter().find_map(|work| late(work, run.limit));
            if outcome.late.is_some() {
                break;
            }
        }
    }
    let seed = |difference: &Difference| difference.seed.wrapping_sub(run.seed);
    outcome.differences.sort_by_key(seed);
    // A worker that panicked has left its work.
    outcome.late = outcome
        .late
        .or(works.iter().find_map(|work| late(work, Duration::ZERO)));
    outcome
}

/// Runs one text after another until there is none left or nobody listens.
fn run_texts<C: Case>(
    run: Run,
    next: &AtomicU64,
    each: impl Fn(u64) -> Result<C>,
    sender: &Sender<Result<C>>,
) {
    loop {
        let index = next.fetch_add(1, Ordering::Relaxed);
        if index >= run.count || sender.send(each(run.seed.wrapping_add(index))).is_err() {
            break;
        }
    }
}

/// Makes a text, has it checked by both, and compares.
fn one<C: Case>(
    generate: &impl Fn(u64) -> C,
    program: &impl Fn(&C) -> Vec<u8>,
    seed: u64,
    work: &Work,
) -> Result<C> {
    *work.lock().unwrap() = Some((seed, Instant::now()));
    let case = generate(seed);
    let answer = case.second();
    *work.lock().unwrap() = None;
    let second = printed(&answer);
    let expected = case.expected().map(printed);
    let program = program(&case);
    let same = program == second && expected.as_ref().is_none_or(|answer| *answer == second);
    Result {
        case,
        answer,
        difference: (!same).then_some(Difference {
            seed,
            program,
            second,
            expected,
        }),
    }
}

/// The seed that a worker has been at for longer than it may.
fn late(work: &Work, limit: Duration) -> Option<u64> {
    let work = *work.lock().ok()?;
    work.filter(|(_, since)| since.elapsed() > limit)
        .map(|(seed, _)| seed)
}

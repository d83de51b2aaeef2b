//! The stored pairs of a base and a job, most of them small, chosen in a fixed
//! order.

use std::collections::{BTreeMap, BTreeSet};
use std::io;
use std::path::Path;

use second::check_job;
use second::generate::model::{uses_second, RULES};
use second::generate::pairs::{pair, pair_of, Pair, CASES};

use crate::corpus::{append, LONGEST};
use crate::examples::{read_examples, read_job_examples};
use crate::made::jobs::{self, MadePair};
use crate::printed;
use crate::sides::{self, Sides};

/// The seeds that are looked at for generated pairs.
const SEEDS: std::ops::Range<u64> = 0..8_000;
/// Generated pairs have at most so many bytes, but for the first two of a case.
const SMALL: usize = 900;
/// How many pairs are wanted of each case and verdict.
const EACH: u64 = 4;

/// Pairs, each once, in the order in which they came.
#[derive(Default)]
pub struct Pairs {
    pairs: Vec<(Vec<u8>, Vec<u8>)>,
    known: BTreeSet<(Vec<u8>, Vec<u8>)>,
    pub sides: Sides,
    /// How many generated pairs there are of each case.
    cases: BTreeMap<&'static str, u64>,
    /// The pairs that don't get the answer that they are made for.
    wrong: Vec<String>,
}

impl Pairs {
    /// All pairs; `examples` is the folder of the examples.
    pub fn make(examples: &Path) -> io::Result<Self> {
        let mut pairs = Pairs::default();
        for example in read_job_examples(&examples.join("jobs"))? {
            pairs.add(
                example.base,
                example.job,
                Some(&answer_of(&example.expected)),
            );
        }
        for example in read_examples(examples)? {
            let expected = answer_of(&example.expected);
            // What is too large fails otherwise in a part.
            if !expected.starts_with("refused 1 ") {
                pairs.add_made(jobs::cut_example(&example.text, &expected));
            }
        }
        pairs.add_made(jobs::pairs());
        pairs.add_generated();
        Ok(pairs)
    }

    pub fn pairs(&self) -> &[(Vec<u8>, Vec<u8>)] {
        &self.pairs
    }

    /// Adds a pair unless it is there, and tells whether it did. Where its answer
    /// is known it must get that.
    fn add(&mut self, base: Vec<u8>, job: Vec<u8>, expected: Option<&str>) -> bool {
        let fits = base.len() <= LONGEST && job.len() <= LONGEST;
        if !fits || !self.known.insert((base.clone(), job.clone())) {
            return false;
        }
        let answer = check_job(&base, &job);
        let found = answer.to_string();
        if let Some(expected) = expected.filter(|expected| *expected != found) {
            let [base, job] = [&base, &job].map(|text| start(text));
            let wrong = format!("made for {expected}, and gets {found}:\n{base}|\n{job}");
            self.wrong.push(wrong);
        }
        self.sides.add(&base, &job, &answer);
        self.pairs.push((base, job));
        true
    }

    fn add_made(&mut self, pairs: Vec<MadePair>) {
        for MadePair {
            base,
            job,
            expected,
        } in pairs
        {
            self.add(base, job, Some(&expected));
        }
    }

    /// Two pairs of each case, and then small ones until there are enough of
    /// each case and verdict, and of all that is wanted.
    fn add_generated(&mut self) {
        for case in 0..CASES.len() {
            for seed in 0..2 {
                self.add_case(pair_of(case, seed));
            }
        }
        let wanted = wanted();
        let mut taken: BTreeMap<(&str, String), u64> = BTreeMap::new();
        for pair in SEEDS.map(pair) {
            if pair.base.len() + pair.job.len() > SMALL {
                continue;
            }
            let answer = check_job(&pair.base, &pair.job);
            let names = sides::names(&pair.base, &pair.job, &answer);
            let key = (pair.case, names[0].clone());
            let few = taken.get(&key).is_none_or(|times| *times < EACH);
            let wanted = (wanted.iter())
                .any(|(name, least)| names.contains(name) && self.sides.count(name) < *least);
            if (few || wanted) && self.add_case(pair) {
                *taken.entry(key).or_default() += 1;
            }
        }
    }

    fn add_case(&mut self, pair: Pair) -> bool {
        let expected = pair.expected.map(|answer| answer.to_string());
        let added = self.add(pair.base, pair.job, expected.as_deref());
        *self.cases.entry(pair.case).or_default() += u64::from(added);
        added
    }

    /// What is missing: pairs, cases and what is wanted of them. A pair that
    /// doesn't get the answer that it is made for is told as well.
    pub fn missing(&self) -> Vec<String> {
        let mut missing = self.wrong.clone();
        let mut want = |times: u64, least: u64, what: &str| {
            if times < least {
                missing.push(format!("{what}: {times}, and {least} are wanted"));
            }
        };
        want(self.pairs.len() as u64, 400, "pairs");
        for (case, _, _) in CASES {
            want(self.cases.get(case).copied().unwrap_or(0), 2, case);
        }
        for (name, least) in wanted() {
            want(self.sides.count(&name), least, &name);
        }
        missing
    }

    /// The file: for each pair the base and the job, each behind its length in
    /// four bytes, the lowest first.
    pub fn file(&self) -> Vec<u8> {
        let mut file = Vec::new();
        for (base, job) in &self.pairs {
            append(&mut file, base);
            append(&mut file, job);
        }
        file
    }

    /// The second checker's answer to each pair.
    pub fn answers(&self) -> Vec<u8> {
        let answers = (self.pairs.iter()).flat_map(|(base, job)| printed(&check_job(base, job)));
        answers.collect()
    }
}

/// What is wanted of the pairs, and how often: each verdict, with the first empty
/// clause and the inputs on which it rests here, there and in both; each number
/// in the base, and all but 4 behind it, for a base that is accepted has a
/// constant; each rule of two parents with one in each part.
fn wanted() -> Vec<(String, u64)> {
    let sides = [sides::OPEN, sides::REFUTED, sides::PARENTS];
    let empty = [sides::EMPTY_IN_BASE, sides::EMPTY_IN_JOB];
    let rests = [
        sides::RESTS_ON_BASE,
        sides::RESTS_ON_JOB,
        sides::RESTS_ON_BOTH,
    ];
    let often = [&sides[..], &empty, &rests].concat();
    let mut wanted: Vec<(String, u64)> = often.iter().map(|name| (name.to_string(), 20)).collect();
    let behind = (1..=11).filter(|&number| number != 4).map(sides::in_job);
    let refused = (1..=11).map(sides::in_base).chain(behind);
    let rules = RULES.into_iter().filter(|rule| uses_second(rule));
    let across = rules.flat_map(|rule| [true, false].map(|in_base| sides::across(rule, in_base)));
    wanted.extend(refused.chain(across).map(|name| (name, 4)));
    wanted
}

/// The start of a text, to be shown.
fn start(text: &[u8]) -> String {
    String::from_utf8_lossy(&text[..text.len().min(400)]).into_owned()
}

/// An answer as it is printed, without its last line end.
fn answer_of(printed: &[u8]) -> String {
    String::from_utf8_lossy(printed).trim_end().to_string()
}

//! What a set of pairs covers: the verdicts, which part is refused and by which
//! number, and what goes across from the base to the job.

use std::collections::BTreeMap;
use std::fmt;

use second::generate::pairs::{clauses, parents};
use second::{check, Answer, Verdict};

use crate::coverage::rules_of;

pub const OPEN: &str = "open";
pub const REFUTED: &str = "refuted";
/// Accepted, with a step of the job that has a parent in each part.
pub const PARENTS: &str = "parents on both sides";
/// Refuted, with the first empty clause here or there, behind clauses of the
/// base.
pub const EMPTY_IN_BASE: &str = "first empty clause in the base";
pub const EMPTY_IN_JOB: &str = "first empty clause in the job";
/// Refuted, resting on inputs of one part or of both.
pub const RESTS_ON_BASE: &str = "rests on the base alone";
pub const RESTS_ON_JOB: &str = "rests on the job alone";
pub const RESTS_ON_BOTH: &str = "rests on both";

/// What a refusal in the base is counted as.
pub fn in_base(number: u8) -> String {
    format!("base refused by {number}")
}

/// What a refusal behind an accepted base is counted as: on a line of the job,
/// or by 1, which the two fail together.
pub fn in_job(number: u8) -> String {
    format!("job refused by {number}")
}

/// What accepted steps by a rule are counted as that have A in the base and B in
/// the job, or A in the job and B in the base.
pub fn across(rule: &str, a_in_base: bool) -> String {
    let [a, b] = match a_in_base {
        true => ["base", "job"],
        false => ["job", "base"],
    };
    format!("{rule} with A in the {a} and B in the {b}")
}

/// How often each thing came, by its name.
#[derive(Clone, Debug, Default)]
pub struct Sides {
    counts: BTreeMap<String, u64>,
}

impl Sides {
    /// Adds a pair whose answer is known.
    pub fn add(&mut self, base: &[u8], job: &[u8], answer: &Answer) {
        for name in names(base, job, answer) {
            *self.counts.entry(name).or_default() += 1;
        }
    }

    pub fn count(&self, name: &str) -> u64 {
        self.counts.get(name).copied().unwrap_or(0)
    }
}

/// The lines of a text, each with its line end.
fn lines(text: &[u8]) -> Vec<&[u8]> {
    text.split_inclusive(|&byte| byte == b'\n').collect()
}

/// The verdict's word and, where refused, the part and the number.
fn verdict_name(base: &[u8], answer: &Answer) -> String {
    match answer.verdict {
        Verdict::Open { .. } => OPEN.into(),
        Verdict::Refuted { .. } => REFUTED.into(),
        Verdict::Refused { number, .. } => match check(base).verdict {
            Verdict::Refused { .. } => in_base(number),
            _ => in_job(number),
        },
    }
}

/// What a pair is counted as, the verdict's name first.
pub fn names(base: &[u8], job: &[u8], answer: &Answer) -> Vec<String> {
    let mut names = vec![verdict_name(base, answer)];
    if !matches!(answer.verdict, Verdict::Refused { .. }) {
        names.extend(steps_across(base, job));
    }
    if let Verdict::Refuted { first, .. } = answer.verdict {
        names.extend(refuted_across(base, first, &answer.rests));
    }
    names
}

/// The names of the job's steps that have a parent in each part, each once.
fn steps_across(base: &[u8], job: &[u8]) -> Vec<String> {
    let first = clauses(&lines(base));
    let mut names = Vec::new();
    for line in lines(job) {
        let ([a, b], [rule]) = (&parents(line)[..], &rules_of(line)[..]) else {
            continue;
        };
        if (*a < first) != (*b < first) {
            names.extend([PARENTS.into(), across(rule, *a < first)]);
        }
    }
    names.sort();
    names.dedup();
    names
}

/// Where the first empty clause stands, and the inputs on which it rests.
fn refuted_across(base: &[u8], empty: usize, rests: &[usize]) -> Vec<String> {
    let first = clauses(&lines(base));
    if first == 0 {
        return Vec::new();
    }
    let place = match empty < first {
        true => EMPTY_IN_BASE,
        false => EMPTY_IN_JOB,
    };
    let in_base = rests.iter().filter(|&&input| input < first).count();
    let rests = match (in_base, rests.len() - in_base) {
        (0, _) => RESTS_ON_JOB,
        (_, 0) => RESTS_ON_BASE,
        _ => RESTS_ON_BOTH,
    };
    vec![place.into(), rests.into()]
}

impl fmt::Display for Sides {
    /// The verdicts, and what goes across.
    fn fmt(&self, f: &mut fmt::Formatter<'_>) -> fmt::Result {
        let row = |name: fn(u8) -> String| -> String {
            let row = (1..=11).map(|number| format!("{number}: {}", self.count(&name(number))));
            row.collect::<Vec<_>>().join(", ")
        };
        let named = |names: &[&str]| -> String {
            let named = names
                .iter()
                .map(|name| format!("{name} {}", self.count(name)));
            named.collect::<Vec<_>>().join(", ")
        };
        writeln!(f, "{}", named(&[OPEN, REFUTED]))?;
        writeln!(f, "base refused by {}", row(in_base))?;
        writeln!(f, "the two refused by {}", row(in_job))?;
        writeln!(f, "accepted: {}", named(&[PARENTS]))?;
        let empty = [EMPTY_IN_BASE, EMPTY_IN_JOB];
        let rests = [RESTS_ON_BASE, RESTS_ON_JOB, RESTS_ON_BOTH];
        writeln!(f, "refuted: {}, {}", named(&empty), named(&rests))
    }
}

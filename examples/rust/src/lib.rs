//! The proved checker for Rust: a safe function over the static library.

use std::fmt;

/// What a C caller sees (`examples/c/fcheck.h`).
pub mod raw {
    pub const REFUSED: u32 = 0;
    pub const OPEN: u32 = 1;
    pub const REFUTED: u32 = 2;
    /// No text has so many clauses.
    pub const CLAUSES: usize = 1_024;

    extern "C" {
        pub fn fcheck_check(
            text: *const u8,
            length: usize,
            first: *mut usize,
            second: *mut usize,
            rests: *mut u8,
            room: usize,
        ) -> u32;

        pub fn fcheck_check_job(
            base: *const u8,
            base_length: usize,
            job: *const u8,
            job_length: usize,
            first: *mut usize,
            second: *mut usize,
            rests: *mut u8,
            room: usize,
        ) -> u32;
    }
}

/// The answer to a text. As a string it is what the program `fcheck` prints, one
/// line or two, without the last line end.
#[derive(Clone, Debug, PartialEq, Eq)]
pub struct Answer {
    pub verdict: Verdict,
    /// The numbers, rising, of the input clauses from which the first empty clause
    /// descends, or itself if it is an input; none where the text isn't refuted.
    pub rests: Vec<usize>,
}

/// The verdict on a text. As a string it is the answer's first line, without its
/// line end.
#[derive(Clone, Copy, Debug, PartialEq, Eq)]
pub enum Verdict {
    /// Accepted: the number of clauses, and the number of the first empty one.
    Refuted { count: usize, first: usize },
    /// Accepted, and no clause is empty: the number of clauses.
    Open { count: usize },
    /// The first failing check of the first failing line, and that line.
    Refused { number: usize, line: usize },
}

/// Checks a text.
pub fn check(text: &[u8]) -> Answer {
    let (text, length) = (text.as_ptr(), text.len());
    // SAFETY: the text is lent for the call, and the two numbers and the bytes are
    // apart from it and from each other.
    answer(|first, second, rests| unsafe {
        raw::fcheck_check(text, length, first, second, rests.as_mut_ptr(), rests.len())
    })
}

/// Checks a base and a job: where the base alone is refused, the answer is its
/// own, and otherwise that of the base's bytes followed by the job's.
pub fn check_job(base: &[u8], job: &[u8]) -> Answer {
    let (base, base_length) = (base.as_ptr(), base.len());
    let (job, job_length) = (job.as_ptr(), job.len());
    // SAFETY: as above, for both parts.
    answer(|first, second, rests| unsafe {
        let (rests, room) = (rests.as_mut_ptr(), rests.len());
        raw::fcheck_check_job(
            base,
            base_length,
            job,
            job_length,
            first,
            second,
            rests,
            room,
        )
    })
}

/// The answer of a call, which leaves its numbers and marks the inputs.
fn answer(call: impl FnOnce(&mut usize, &mut usize, &mut [u8]) -> u32) -> Answer {
    let (mut first, mut second) = (0, 0);
    let mut rests = [0; raw::CLAUSES];
    let word = call(&mut first, &mut second, &mut rests);
    let verdict = verdict(word, first, second);
    // Only those of a refuted text are looked at.
    let clauses = match verdict {
        Verdict::Refuted { count, .. } => count,
        _ => 0,
    };
    let marked = (0..clauses).filter(|&number| rests[number] == 1);
    Answer {
        verdict,
        rests: marked.collect(),
    }
}

/// The verdict that has this word and these numbers.
fn verdict(word: u32, first: usize, second: usize) -> Verdict {
    match word {
        raw::REFUTED => Verdict::Refuted {
            count: first,
            first: second,
        },
        raw::OPEN => Verdict::Open { count: first },
        raw::REFUSED => Verdict::Refused {
            number: first,
            line: second,
        },
        other => unreachable!("the word is {other}"),
    }
}

impl fmt::Display for Answer {
    fn fmt(&self, f: &mut fmt::Formatter<'_>) -> fmt::Result {
        write!(f, "{}", self.verdict)?;
        if matches!(self.verdict, Verdict::Refuted { .. }) {
            write!(f, "\nrests")?;
            for number in &self.rests {
                write!(f, " {number}")?;
            }
        }
        Ok(())
    }
}

impl fmt::Display for Verdict {
    fn fmt(&self, f: &mut fmt::Formatter<'_>) -> fmt::Result {
        match self {
            Verdict::Refuted { count, first } => write!(f, "refuted {count} {first}"),
            Verdict::Open { count } => write!(f, "open {count}"),
            Verdict::Refused { number, line } => write!(f, "refused {number} {line}"),
        }
    }
}

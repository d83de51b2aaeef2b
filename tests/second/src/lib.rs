//! A second, independent checker for the text format of F-logic derivations
//! that `docs/TEXT-FORM.md` states, and a seeded generator of test texts for it.
//!
//! The checker is written from that page alone. Quotations are its sentences,
//! each behind the number of the statement that it stands in.
//!
//! * [`syntax`]: terms, literals, clauses and lines, as kept in memory;
//! * `parser`: one line of text to its syntax (check 2);
//! * `reading`: what is held from line to line (checks 3 to 6);
//! * `rules`: the fourteen rules (checks 7 to 11);
//! * `descent`: the inputs that a refutation rests on;
//! * `job`: a text in two parts, a base and a job;
//! * [`generate`]: the generator of test texts.

mod descent;
pub mod generate;
mod job;
mod parser;
mod reading;
mod rules;
pub mod syntax;

use std::fmt;

use reading::Reading;

pub use job::check_job;

/// T18: "bytes of a text", at most.
pub const MAX_BYTES: usize = 65_535;
/// T18: "lines of a text".
pub const MAX_LINES: usize = 1_024;
/// T18: "symbols".
pub const MAX_SYMBOLS: usize = 256;
/// T18: "K of a sym line".
pub const MAX_ARITY: u16 = 8;
/// T18: "arguments of a method".
pub const MAX_ARGUMENTS: u16 = 8;
/// T18: "parts of a molecule".
pub const MAX_PARTS: usize = 16;
/// T18: "literals of a clause".
pub const MAX_LITERALS: usize = 32;
/// T18: "a variable's number".
pub const MAX_VARIABLE: u16 = 31;
/// T18: "terms of a LET".
pub const MAX_LIST_TERMS: usize = 32;
/// T12: "Terms nest at most 16 terms deep, the outermost counting as 1."
pub const MAX_DEPTH: usize = 16;

/// The verdict on a whole text (V1 to V3).
#[derive(Clone, Copy, Debug, PartialEq, Eq)]
pub enum Verdict {
    /// V1: "`Refuted(count, first)`: the text is accepted, count is the number
    /// of its clauses, and first is the number of the first empty one."
    Refuted { count: usize, first: usize },
    /// V2: "`Open(count)`: the text is accepted, count is the number of its
    /// clauses, and none is empty."
    Open { count: usize },
    /// V3: "`Refused(number, line)`: line is the first line that fails a
    /// check, number the first check that it fails."
    Refused { number: u8, line: usize },
}

impl fmt::Display for Verdict {
    /// V27: "prints one line: the word refuted, open or refused, and then the
    /// numbers of the verdict." V28: "That line has one space before each
    /// number". It is the answer's first line, without its line end.
    fn fmt(&self, f: &mut fmt::Formatter<'_>) -> fmt::Result {
        match self {
            Verdict::Refuted { count, first } => write!(f, "refuted {count} {first}"),
            Verdict::Open { count } => write!(f, "open {count}"),
            Verdict::Refused { number, line } => write!(f, "refused {number} {line}"),
        }
    }
}

/// What is answered to a whole text.
#[derive(Clone, Debug, PartialEq, Eq)]
pub struct Answer {
    pub verdict: Verdict,
    /// V30: "A refuted answer also names the input clauses from which its first
    /// empty clause descends." Here are their numbers. "Other answers name
    /// none."
    pub rests: Vec<usize>,
}

impl fmt::Display for Answer {
    /// V31: "For a refuted text `fcheck` prints a second line: the word rests,
    /// and then these numbers". The last line end is left to the caller.
    fn fmt(&self, f: &mut fmt::Formatter<'_>) -> fmt::Result {
        write!(f, "{}", self.verdict)?;
        if matches!(self.verdict, Verdict::Refuted { .. }) {
            write!(f, "\nrests")?;
            for number in &self.rests {
                write!(f, " {number}")?;
            }
        }
        Ok(())
    }
}

/// The answer of a verdict that rests on no input.
impl From<Verdict> for Answer {
    fn from(verdict: Verdict) -> Self {
        let rests = Vec::new();
        Answer { verdict, rests }
    }
}

/// The eleven checks, with the numbers that V11 to V21 give them. A `Check`
/// returned as an error is the check that failed.
#[derive(Clone, Copy, Debug, PartialEq, Eq)]
#[repr(u8)]
pub(crate) enum Check {
    /// V11: "the text has too many bytes or lines; the line is 0".
    Size = 1,
    /// V12: "the line isn't a form".
    Form = 2,
    /// V13: "a sym line comes after some in or by line, or an in line after
    /// some by line".
    Order = 3,
    /// V14: "an in or by line comes with no symbol of K = 0 declared; or the
    /// text ends so: line 0, tested after all lines have passed".
    Constant = 4,
    /// V15: "another limit is passed".
    Limit = 5,
    /// V16: "an applied symbol isn't declared, or has another number of terms".
    Symbol = 6,
    /// V17: "the number of a used parent isn't below the step's own".
    Parent = 7,
    /// V18: "an unused number isn't 0, or a list has the wrong length".
    Unused = 8,
    /// V19: "a position, sign, kind of atom, result, K, or pair I, J isn't as
    /// the rule's shape says".
    Shape = 9,
    /// V20: "the agreement fails".
    Agreement = 10,
    /// V21: "the claim isn't the rule's".
    Claim = 11,
}

impl Check {
    /// The answer when this check is the first to fail, on this line.
    fn refuse(self, line: usize) -> Answer {
        let number = self as u8;
        Verdict::Refused { number, line }.into()
    }

    /// Passes if `condition` holds, and fails with this check otherwise.
    pub(crate) fn require(self, condition: bool) -> Result<(), Check> {
        if condition {
            Ok(())
        } else {
            Err(self)
        }
    }
}

/// Checks a whole text and gives its answer.
///
/// V3: "line is the first line that fails a check, number the first check that
/// it fails. A text is accepted exactly when no check fails." V4: "The text is
/// only read."
pub fn check(text: &[u8]) -> Answer {
    if text.len() > MAX_BYTES || lines(text).count() > MAX_LINES {
        return Check::Size.refuse(0);
    }
    read(text)
}

/// T1: "Every line ends with byte 10". T2: "Bytes after the last line end are
/// one more line". Each keeps its line end, and that one has none.
fn lines(text: &[u8]) -> impl Iterator<Item = &[u8]> {
    text.split_inclusive(|&byte| byte == b'\n')
}

/// The answer to a text of a size that may be.
fn read(text: &[u8]) -> Answer {
    let mut reading = Reading::default();
    for (index, line) in lines(text).enumerate() {
        if let Err(failed) = reading.read_line(line) {
            return failed.refuse(index + 1);
        }
    }
    reading.answer()
}

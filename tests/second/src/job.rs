//! A text in two parts, a base and a job.

use crate::{check, Answer, Verdict};

/// Checks a base and a job and gives the answer to both.
///
/// V34: "The base is read alone first. If it is refused, the answer is its own
/// refusal, and the job isn't looked at." V35: "Otherwise the answer is that of
/// the base's bytes followed by the job's".
pub fn check_job(base: &[u8], job: &[u8]) -> Answer {
    let alone = check(base);
    if matches!(alone.verdict, Verdict::Refused { .. }) {
        return alone;
    }
    check(&[base, job].concat())
}

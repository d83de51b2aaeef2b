//! A base and a job beside the same text in one piece, both by the proved
//! checker: what the second part costs, and that nothing is copied together.

use std::hint::black_box;

use crate::counts::{self, Counts};
use crate::texts;
use crate::{each, least, run_once};
use second::Verdict;

/// The ratio to stay within.
const GOAL: f64 = 1.05;

/// A base and a job that are accepted.
struct Job {
    name: &'static str,
    base: Vec<u8>,
    job: Vec<u8>,
}

fn all() -> Vec<Job> {
    let halves = |name, text: Vec<u8>| {
        let middle = text.len() / 2;
        let end = text[middle..].iter().position(|&byte| byte == b'\n');
        let (base, job) = text.split_at(middle + end.unwrap() + 1);
        Job {
            name,
            base: base.to_vec(),
            job: job.to_vec(),
        }
    };
    vec![
        Job {
            name: "l  500 facts and a short job",
            base: texts::facts(500),
            job: SHORT.into(),
        },
        halves("l  ordinary clauses in halves", texts::ordinary_text()),
        halves("l  a chain in halves", texts::chain()),
    ]
}

/// Two facts, and three steps by clauses of the base, 1 and 201, and of the job.
const SHORT: &str = "\
(in (or (+ (sub (f 7) (f 14)))))
(in (or (- (mem (f 1) (f 14)))))
(by inc 1 0 500 0 0 (let) (let) (or (+ (mem (f 1) (f 14)))))
(by inc 201 0 500 0 0 (let) (let) (or (+ (mem (f 1) (f 14)))))
(by res 501 0 502 0 0 (let) (let) (or))
";

/// Times all of them and prints a table.
pub fn print() {
    println!(
        "\na base and a job (parts) beside the same text in one piece (joined), both by fcheck"
    );
    println!(
        "{:<31} {:>7} {:>6} {:>11} {:>9} {:>6} {:>5} {:<7} {:>14} {:>14} {:<7}",
        "text",
        "bytes",
        "lines",
        "joined (us)",
        "parts",
        "ratio",
        "goal",
        "",
        "instr/byte",
        "moved/line",
        "no copy"
    );
    for job in &all() {
        let joined = [&job.base[..], &job.job].concat();
        hold(job, &joined);
        let times = least(
            || run_once(|| fcheck::check(black_box(&joined))),
            || run_once(|| fcheck::check_job(black_box(&job.base), black_box(&job.job))),
        );
        let whole = counts::of_texts(std::slice::from_ref(&joined));
        let parts = counts::of_job(&job.base, &job.job);
        print_row(job, &joined, times, [&whole, &parts]);
    }
}

fn print_row(job: &Job, joined: &[u8], (whole, parts): (f64, f64), counts: [&Counts; 2]) {
    let name = job.name;
    let lines = joined.iter().filter(|&&byte| byte == b'\n').count();
    let ratio = parts / whole;
    let met = |met: bool| if met { "met" } else { "MISSED" };
    let both = |counts: [Option<u64>; 2], of: usize| {
        let [whole, parts] = counts.map(|count| each(count, of));
        format!("{whole}, {parts}")
    };
    let copied = match counts.map(|counts| counts.moved) {
        [Some(whole), Some(parts)] => met(parts <= whole),
        _ => "-",
    };
    println!(
        "{name:<31} {:>7} {lines:>6} {whole:>11.1} {parts:>9.1} {ratio:>6.2} {GOAL:>5.2} {:<7} {:>14} {:>14} {copied:<7}",
        joined.len(),
        met(ratio <= GOAL),
        both(counts.map(|counts| counts.instructions), joined.len()),
        both(counts.map(|counts| counts.moved), lines),
    );
}

/// Holds both ways to the second checker, which accepts.
fn hold(job: &Job, joined: &[u8]) {
    let second = second::check_job(&job.base, &job.job);
    let accepted = !matches!(second.verdict, Verdict::Refused { .. });
    assert!(accepted, "{}: the second checker says {second}", job.name);
    for answer in [
        fcheck::check(joined),
        fcheck::check_job(&job.base, &job.job),
    ] {
        assert_eq!(answer.to_string(), second.to_string(), "{}", job.name);
    }
}

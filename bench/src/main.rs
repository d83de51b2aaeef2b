//! Times the proved checker, through its static library, beside the second
//! checker, on the same texts and in one run, and prints their ratios, what does
//! not depend on the machine (instructions a byte, bytes moved a line) and the
//! stack that the proved one needs. Then a base and a job beside the same text in
//! one piece. It tells; it fails only where the checkers differ or a text is not
//! what its family says.

mod counts;
mod jobs;
mod machine;
mod stack;
mod stored;
mod texts;

use std::hint::black_box;
use std::time::{Duration, Instant};

use counts::Counts;
use second::{Verdict, MAX_LINES};
use texts::{Family, Text};

/// A sample repeats a call until it takes so long.
const SAMPLE: Duration = Duration::from_millis(4);
/// How many samples are taken of each checker, in turns.
const SAMPLES: usize = 25;

fn main() {
    println!("{}\n", machine::description());
    println!(
        "{:<36} {:>7} {:>6} {:>11} {:>9} {:>6} {:>5} {:<7} {:>10} {:>10}",
        "text",
        "bytes",
        "lines",
        "second (us)",
        "fcheck",
        "ratio",
        "goal",
        "",
        "instr/byte",
        "moved/line"
    );
    let mut sizes = Vec::new();
    let mut most = 0;
    for text in &texts::all() {
        hold(text);
        let (second, fcheck) = measure(&text.parts);
        if text.family == Family::Size {
            sizes.push((text.bytes() as f64, second, fcheck));
        }
        print_row(text, second, fcheck, &counts::of_texts(&text.parts));
        most = text
            .parts
            .iter()
            .map(|part| stack::used(part))
            .fold(most, usize::max);
    }
    println!("\nnanoseconds a byte, by size (linear: the same)");
    for (bytes, second, fcheck) in &sizes {
        let each = |time: &f64| time * 1000.0 / bytes;
        println!(
            "{bytes:>6} bytes: second {:.1}, fcheck {:.1}",
            each(second),
            each(fcheck)
        );
    }
    println!("\nstack that fcheck needed on these texts: at most {most} bytes");
    jobs::print();
}

fn print_row(text: &Text, second: f64, fcheck: f64, counts: &Counts) {
    let ratio = fcheck / second;
    let goal = text.family.goal();
    let verdict = if ratio <= goal { "met" } else { "MISSED" };
    println!(
        "{:<36} {:>7} {:>6} {:>11.1} {:>9.1} {:>6.2} {:>5.2} {:<7} {:>10} {:>10}",
        text.name,
        text.bytes(),
        text.lines(),
        second,
        fcheck,
        ratio,
        goal,
        verdict,
        each(counts.instructions, text.bytes()),
        each(counts.moved, text.lines()),
    );
}

/// A count for each of so many, where there is one.
fn each(count: Option<u64>, of: usize) -> String {
    count.map_or("-".into(), |count| {
        format!("{:.1}", count as f64 / of as f64)
    })
}

/// Holds both checkers to what the text is made for, and to each other over the
/// whole answer.
fn hold(text: &Text) {
    for part in &text.parts {
        let second = second::check(part);
        let right = match (text.family, second.verdict) {
            (Family::Corpus, _) => true,
            (Family::Late, Verdict::Refused { number, line }) => {
                number == 11 && line == text.lines()
            }
            (Family::Refutation, Verdict::Refuted { count, first }) => {
                first + 1 == count && text.lines() == MAX_LINES
            }
            (Family::Late | Family::Refutation, _) => false,
            (_, Verdict::Refused { .. }) => false,
            _ => true,
        };
        assert!(right, "{}: the second checker says {second}", text.name);
        let fcheck = fcheck::check(part);
        assert_eq!(fcheck.to_string(), second.to_string(), "{}", text.name);
    }
}

/// The microseconds that each checker takes for the texts.
fn measure(parts: &[Vec<u8>]) -> (f64, f64) {
    least(
        || (parts.iter()).for_each(|text| run_once(|| second::check(black_box(text)))),
        || (parts.iter()).for_each(|text| run_once(|| fcheck::check(black_box(text)))),
    )
}

/// Runs a check, whose answer counts as used.
fn run_once<A>(check: impl Fn() -> A) {
    black_box(check());
}

/// The microseconds that each of two takes, in turns: the least of the samples,
/// since whatever else runs can only add to one.
fn least(one: impl Fn(), two: impl Fn()) -> (f64, f64) {
    let (one_calls, two_calls) = (calls(&one), calls(&two));
    let mut least = (f64::MAX, f64::MAX);
    for _ in 0..SAMPLES {
        least.0 = least.0.min(sample(&one, one_calls));
        least.1 = least.1.min(sample(&two, two_calls));
    }
    least
}

/// How many calls a sample has.
fn calls(call: &impl Fn()) -> u32 {
    let start = Instant::now();
    let mut calls = 0;
    while start.elapsed() < SAMPLE {
        call();
        calls += 1;
    }
    calls
}

fn sample(call: &impl Fn(), calls: u32) -> f64 {
    let start = Instant::now();
    for _ in 0..calls {
        call();
    }
    start.elapsed().as_secs_f64() * 1e6 / f64::from(calls)
}

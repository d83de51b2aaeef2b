//! Writes generated texts, or counts their verdicts.

use std::collections::BTreeMap;
use std::fmt::Display;
use std::io::{self, Write};
use std::path::Path;
use std::process::ExitCode;

use second::generate::generate;
use second::generate::model::RULES;
use second::{check, Verdict};

const USAGE: &str = "\
usage: generate SEED             one text to standard output
       generate SEED COUNT DIR   texts of COUNT seeds to DIR/NNNNNN.txt
       generate --stats SEED COUNT   how often each verdict comes";

fn main() -> ExitCode {
    let arguments: Vec<String> = std::env::args().skip(1).collect();
    match run(&arguments) {
        Ok(()) => ExitCode::SUCCESS,
        Err(message) => {
            eprintln!("generate: {message}");
            ExitCode::FAILURE
        }
    }
}

fn run(arguments: &[String]) -> Result<(), String> {
    let arguments: Vec<&str> = arguments.iter().map(String::as_str).collect();
    match arguments[..] {
        ["--stats", seed, count] => print_stats(number(seed)?, number(count)?),
        [seed] => io::stdout().write_all(&generate(number(seed)?)),
        [seed, count, dir] => write_texts(number(seed)?, number(count)?, Path::new(dir)),
        _ => return Err(USAGE.into()),
    }
    .map_err(|error| error.to_string())
}

fn number(argument: &str) -> Result<u64, String> {
    let number = argument.parse();
    number.map_err(|error| format!("{argument}: {error}\n{USAGE}"))
}

/// Writes the texts of some seeds, numbered from 0.
fn write_texts(seed: u64, count: u64, dir: &Path) -> io::Result<()> {
    std::fs::create_dir_all(dir)?;
    for index in 0..count {
        let text = generate(seed.wrapping_add(index));
        std::fs::write(dir.join(format!("{index:06}.txt")), text)?;
    }
    Ok(())
}

/// Prints how often each verdict comes, and for each rule how many steps were
/// accepted and how many refused by each number.
fn print_stats(seed: u64, count: u64) -> io::Result<()> {
    let mut verdicts: BTreeMap<String, u64> = BTreeMap::new();
    let mut steps: BTreeMap<(String, u8), u64> = BTreeMap::new();
    let mut sizes = Vec::new();
    for index in 0..count {
        let text = generate(seed.wrapping_add(index));
        let verdict = check(&text).verdict;
        sizes.push(text.len());
        let (name, refusal) = match verdict {
            Verdict::Refuted { .. } => ("refuted".to_string(), None),
            Verdict::Open { .. } => ("open".to_string(), None),
            Verdict::Refused { number, line } => {
                (format!("refused {number:2}"), Some((number, line)))
            }
        };
        *verdicts.entry(name).or_default() += 1;
        count_steps(&text, refusal, &mut steps);
    }

    let out = &mut io::stdout().lock();
    for (name, times) in &verdicts {
        let share = 100.0 * *times as f64 / count as f64;
        writeln!(out, "{name:<12}{times:>8} {share:>6.2} %")?;
    }
    sizes.sort_unstable();
    for share in [50, 90, 99, 100] {
        if let Some(size) = sizes.get((sizes.len() * share / 100).saturating_sub(1)) {
            writeln!(out, "{share:>3} % of the texts have at most {size} bytes")?;
        }
    }
    let columns = 2..=11;
    let heading = columns.clone().map(|number| format!("{number:>6}"));
    writeln!(out, "rule   accepted{}", heading.collect::<String>())?;
    for rule in RULES {
        let times = |number| cell(steps.get(&(rule.to_string(), number)).unwrap_or(&0));
        let row = columns
            .clone()
            .map(|number| format!("{:>6}", times(number)));
        writeln!(out, "{rule:<7}{:>8}{}", times(0), row.collect::<String>())?;
    }
    Ok(())
}

/// A number in the table, with a dot for 0.
fn cell(times: &u64) -> Box<dyn Display> {
    match times {
        0 => Box::new("."),
        _ => Box::new(*times),
    }
}

/// Counts the by lines up to the refused one, under number 0 if accepted.
fn count_steps(text: &[u8], refusal: Option<(u8, usize)>, steps: &mut BTreeMap<(String, u8), u64>) {
    let last = match refusal {
        Some((_, line)) => line,
        None => usize::MAX,
    };
    for (index, line) in text.split(|&byte| byte == b'\n').enumerate().take(last) {
        let number = match refusal {
            Some((number, line)) if line == index + 1 => number,
            _ => 0,
        };
        let Some(rest) = line.strip_prefix(b"(by ") else {
            continue;
        };
        let word = rest.split(|&byte| byte == b' ').next().unwrap_or(b"");
        let rule = String::from_utf8_lossy(word).into_owned();
        *steps.entry((rule, number)).or_default() += 1;
    }
}

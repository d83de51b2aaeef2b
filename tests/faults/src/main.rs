//! Plants faults into copies of the second checker, one in each, runs the
//! stored corpus through them, and fails if a fault changes no answer.

mod copy;
mod fault;

use std::collections::BTreeMap;
use std::path::{Path, PathBuf};
use std::process::ExitCode;
use std::sync::atomic::{AtomicUsize, Ordering};
use std::sync::Mutex;
use std::{fs, thread};

use copy::Batch;
use fault::Fault;

/// How many programs are built and run at a time.
const WORKERS: usize = 2;
/// How many copies a program has.
const BATCH: usize = 12;

/// What a fault changes: the first text or pair, counted from 1, the pairs behind
/// the texts, its right answer and the copy's, and how many have another answer.
struct Notice {
    texts: usize,
    first: usize,
    right: String,
    wrong: String,
}

fn main() -> ExitCode {
    match run() {
        Ok(0) => ExitCode::SUCCESS,
        Ok(_) => ExitCode::from(1),
        Err(message) => {
            eprintln!("faults: {message}");
            ExitCode::from(2)
        }
    }
}

/// A folder or file of the repository.
fn path(name: &str) -> PathBuf {
    Path::new(env!("CARGO_MANIFEST_DIR"))
        .join("../..")
        .join(name)
}

/// Prints the table and gives the number of faults that go unnoticed.
fn run() -> Result<usize, String> {
    let faults = fault::read(include_str!("../faults.txt"))?;
    let right = path("crates/corpus/stdout");
    let right = fs::read_to_string(&right).map_err(|e| format!("{}: {e}", right.display()))?;
    let notices = try_all(&faults, &answers(&right))?;

    let (right, wrong) = ("right", "wrong");
    println!("  texts  first  {right:<25} {wrong:<25} fault");
    let mut unnoticed = 0;
    for (fault, notice) in faults.iter().zip(notices) {
        let Fault { file, what, .. } = fault;
        let row = match notice {
            Some(notice) => notice.row(),
            None => {
                unnoticed += 1;
                format!("   none      -  {:<25} {:<25}", "-", "-")
            }
        };
        println!("{row} {file}: {what}");
    }
    println!("{} passed, {unnoticed} failed", faults.len() - unnoticed);
    Ok(unnoticed)
}

impl Notice {
    /// Its part of a row of the table; long answers are cut.
    fn row(&self) -> String {
        let Notice { texts, first, .. } = self;
        let [right, wrong] = [&self.right, &self.wrong].map(|answer| match answer.len() {
            0..=25 => answer.clone(),
            _ => format!("{}...", &answer[..22]),
        });
        format!("{texts:>7} {first:>6}  {right:<25} {wrong:<25}")
    }
}

/// The answers that the corpus stores, each on one line: a second line, behind a
/// comma, belongs to the one before it.
fn answers(stored: &str) -> Vec<String> {
    let mut answers: Vec<String> = Vec::new();
    for line in stored.lines() {
        match answers.last_mut().filter(|_| line.starts_with("rests")) {
            Some(answer) => *answer += &format!(", {line}"),
            None => answers.push(line.into()),
        }
    }
    answers
}

/// What each fault changes, in their order. A copy without one must answer as
/// the corpus says.
fn try_all(faults: &[Fault], right: &[String]) -> Result<Vec<Option<Notice>>, String> {
    let mut copies = vec![None];
    copies.extend(faults.iter().map(Some));
    // All are written first: a table that doesn't fit the source fails here.
    let batches: Result<Vec<(Batch, usize)>, String> = (copies.chunks(BATCH).enumerate())
        .map(|(number, faults)| Ok((Batch::write(number, faults)?, faults.len())))
        .collect();
    let batches = batches?;
    let next = AtomicUsize::new(0);
    let found = Mutex::new(BTreeMap::new());
    thread::scope(|scope| {
        for _ in 0..WORKERS {
            scope.spawn(|| loop {
                let number = next.fetch_add(1, Ordering::Relaxed);
                let Some((batch, count)) = batches.get(number) else {
                    break;
                };
                let answers = batch.answers(*count);
                found.lock().unwrap().insert(number, answers);
            });
        }
    });
    let mut notices = Vec::new();
    for answers in found.into_inner().unwrap().into_values() {
        notices.extend(answers?.iter().map(|answers| notice(right, answers)));
    }
    match notices.remove(0) {
        None => Ok(notices),
        Some(Notice { first, wrong, .. }) => {
            Err(format!("without a fault: text {first} is answered {wrong}"))
        }
    }
}

/// Where a copy's answers differ; one that ends early has no answer to the
/// texts that are left.
fn notice(right: &[String], answers: &[String]) -> Option<Notice> {
    let answer = |index: usize| answers.get(index).map_or("none", String::as_str);
    let differs: Vec<usize> = (0..right.len())
        .filter(|&index| right[index] != answer(index))
        .collect();
    let first = *differs.first()?;
    Some(Notice {
        texts: differs.len(),
        first: first + 1,
        right: right[first].clone(),
        wrong: answer(first).into(),
    })
}

#[cfg(test)]
mod tests {
    use super::answers;

    #[test]
    fn a_second_line_belongs_to_the_answer_before_it() {
        let stored = "open 0\nrefuted 3 2\nrests 0 1\nrefuted 1 0\nrests\nrefused 2 1\n";
        let right = [
            "open 0",
            "refuted 3 2, rests 0 1",
            "refuted 1 0, rests",
            "refused 2 1",
        ];
        assert_eq!(answers(stored), right);
    }
}

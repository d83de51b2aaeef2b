//! What the programs of `src/bin` run: each text of a file, or, where `jobs`
//! stands behind it, each base with its job.

#[path = "stored.rs"]
mod stored;

use std::env;
use std::hint::black_box;
use std::path::Path;

/// Hands each check to the caller, to be run once.
pub fn each(mut run: impl FnMut(&dyn Fn())) {
    let arguments: Vec<String> = env::args().skip(1).collect();
    let (file, parts) = match &arguments[..] {
        [file] => (file, 1),
        [file, jobs] if jobs == "jobs" => (file, 2),
        _ => panic!("a file"),
    };
    for texts in stored::texts(Path::new(file)).chunks(parts) {
        run(&|| _ = black_box(check(black_box(texts))));
    }
}

fn check(texts: &[Vec<u8>]) -> fcheck::Answer {
    match texts {
        [base, job] => fcheck::check_job(base, job),
        _ => fcheck::check(&texts[0]),
    }
}

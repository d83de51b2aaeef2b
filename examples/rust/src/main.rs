//! Prints the answer to the text on standard input, through the static library;
//! with an argument, that to the base in the file of that name and the job on
//! standard input. The exit status is 0 where the text is accepted, 1 where it is
//! refused, and 2 where something can't be read or the answer can't be written.

mod standard;

use std::fs::File;
use std::io::{self, Read, Write};
use std::process::ExitCode;

use fcheck::Verdict;

/// One byte more than a text may have: a longer text is refused by its length.
const ENOUGH: u64 = 65_536;

fn main() -> ExitCode {
    match check() {
        Ok(Verdict::Refused { .. }) => ExitCode::from(1),
        Ok(_) => ExitCode::SUCCESS,
        Err(error) => {
            eprintln!("check: {error}");
            ExitCode::from(2)
        }
    }
}

/// Reads the text, or the base and the job, prints the answer and gives its
/// verdict.
fn check() -> io::Result<Verdict> {
    let arguments: Vec<_> = std::env::args_os().skip(1).collect();
    let answer = match &arguments[..] {
        [] => fcheck::check(&read(standard::input()?)?),
        [base] => {
            let base = read(File::open(base)?)?;
            fcheck::check_job(&base, &read(standard::input()?)?)
        }
        _ => return Err(io::Error::other("usage: check [BASE] < TEXT")),
    };
    writeln!(standard::output()?, "{answer}")?;
    Ok(answer.verdict)
}

fn read(input: impl Read) -> io::Result<Vec<u8>> {
    let mut text = Vec::new();
    input.take(ENOUGH).read_to_end(&mut text)?;
    Ok(text)
}

//! Reads a text from standard input and prints its answer; or, where a file is
//! named, takes this as the base and standard input as the job.

use std::fs::File;
use std::io::{self, Read, Write};
use std::process::ExitCode;

fn main() -> ExitCode {
    match run() {
        Ok(()) => ExitCode::SUCCESS,
        Err(error) => {
            eprintln!("second: {error}");
            ExitCode::FAILURE
        }
    }
}

fn run() -> io::Result<()> {
    let arguments: Vec<_> = std::env::args_os().skip(1).collect();
    let answer = match &arguments[..] {
        [] => second::check(&some(io::stdin())?),
        [base] => {
            let base = some(File::open(base)?)?;
            second::check_job(&base, &some(io::stdin())?)
        }
        _ => return Err(io::Error::other("usage: second [BASE] < TEXT")),
    };
    writeln!(io::stdout(), "{answer}")
}

/// One byte above the limit is enough to see that a text has too many.
fn some(input: impl Read) -> io::Result<Vec<u8>> {
    let mut text = Vec::new();
    let enough = second::MAX_BYTES as u64 + 1;
    input.take(enough).read_to_end(&mut text)?;
    Ok(text)
}

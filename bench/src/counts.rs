//! What a check costs that does not depend on the machine: instructions, by
//! callgrind where it is installed, and the bytes that memcpy and memmove move.
//! Both are counted in a process of their own (`src/bin`), over a file that has
//! each text behind its length, in four bytes, the lowest first; a job follows
//! its base.

use std::path::{Path, PathBuf};
use std::process::{Command, Output};
use std::{env, fs, process};

pub struct Counts {
    pub instructions: Option<u64>,
    pub moved: Option<u64>,
}

/// Of `fcheck_check` on some texts.
pub fn of_texts(texts: &[Vec<u8>]) -> Counts {
    of(texts, "fcheck_check", &[])
}

/// Of `fcheck_check_job` on a base and a job.
pub fn of_job(base: &[u8], job: &[u8]) -> Counts {
    let texts = [base.to_vec(), job.to_vec()];
    of(&texts, "fcheck_check_job", &["jobs"])
}

fn of(texts: &[Vec<u8>], function: &str, mode: &[&str]) -> Counts {
    let file = env::temp_dir().join(format!("fcheck-bench-{}", process::id()));
    let mut bytes = Vec::new();
    for text in texts {
        bytes.extend_from_slice(&(text.len() as u32).to_le_bytes());
        bytes.extend_from_slice(text);
    }
    fs::write(&file, bytes).unwrap();
    let counts = Counts {
        instructions: instructions(&file, function, mode),
        moved: moved(&file, mode),
    };
    fs::remove_file(&file).unwrap();
    counts
}

/// A program of this package, beside the running one.
fn program(name: &str) -> Option<PathBuf> {
    let path = env::current_exe().ok()?.with_file_name(name);
    path.exists().then_some(path)
}

fn said(output: &Output) -> String {
    String::from_utf8_lossy(&output.stderr).into_owned()
}

/// The instructions of the function and what it calls.
fn instructions(file: &Path, function: &str, mode: &[&str]) -> Option<u64> {
    let output = Command::new("valgrind")
        .arg("--tool=callgrind")
        .arg(format!("--toggle-collect={function}"))
        .arg("--callgrind-out-file=/dev/null")
        .arg(program("once")?)
        .arg(file)
        .args(mode)
        .output()
        .ok()?;
    let said = said(&output);
    let line = said.lines().find(|line| line.contains("Collected : "))?;
    line.rsplit(' ').next()?.parse().ok()
}

fn moved(file: &Path, mode: &[&str]) -> Option<u64> {
    let mut command = Command::new(program("moved")?);
    let output = command.arg(file).args(mode).output().ok()?;
    String::from_utf8_lossy(&output.stdout).trim().parse().ok()
}

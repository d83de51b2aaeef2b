//! Copies of the second checker: some of them make a program, each a module of
//! it, that answers the corpus by the copy that is named.

use std::fs;
use std::io::Read;
use std::path::{Path, PathBuf};
use std::process::{Command, Stdio};
use std::sync::mpsc;
use std::thread;
use std::time::Duration;

use crate::fault::Fault;
use crate::path;

/// The checker's files; its generator is left out.
const FILES: [&str; 7] = [
    "descent.rs",
    "job.rs",
    "lib.rs",
    "parser.rs",
    "reading.rs",
    "rules.rs",
    "syntax.rs",
];
/// A copy that takes longer is ended; the corpus takes less than a second.
const LIMIT: Duration = Duration::from_secs(20);

/// Some copies in one program.
pub struct Batch {
    folder: PathBuf,
}

impl Batch {
    /// Writes the copies, each with a fault or with none.
    pub fn write(number: usize, faults: &[Option<&Fault>]) -> Result<Self, String> {
        let copies = Path::new(env!("CARGO_MANIFEST_DIR")).join("target/copies");
        let folder = copies.join(number.to_string());
        let mut modules = String::new();
        let mut calls = String::new();
        for (index, fault) in faults.iter().enumerate() {
            let name = format!("copy{index}");
            let written = write_copy(&folder.join(&name), &name, *fault);
            let what = fault.map_or("no fault", |fault| &fault.what);
            written.map_err(|e| format!("{what}: {e}"))?;
            modules += &format!("mod {name};\n");
            calls += &format!("    (|text| {name}::check(text).to_string(), ");
            calls += &format!("|base, job| {name}::check_job(base, job).to_string()),\n");
        }
        let count = faults.len();
        let table = format!("const COPIES: [Copy; {count}] = [\n{calls}];\n");
        let driver = include_str!("driver.rs");
        write_file(&folder, "main.rs", &(modules + &table + driver))?;
        Ok(Batch { folder })
    }

    /// The answers of each copy to the corpus, its texts and then its pairs. One
    /// that ends early has fewer than there are.
    pub fn answers(&self, count: usize) -> Result<Vec<Vec<String>>, String> {
        let program = build(&self.folder)?;
        let answers = (0..count).map(|index| run(&program, index)).collect();
        // The sources stay, to be looked at.
        fs::remove_file(&program).map_err(|e| format!("{}: {e}", program.display()))?;
        answers
    }
}

/// Writes a copy as a module of this name.
fn write_copy(folder: &Path, name: &str, fault: Option<&Fault>) -> Result<(), String> {
    if let Some(fault) = fault.filter(|fault| !FILES.contains(&fault.file.as_str())) {
        return Err(format!("{}: no such file", fault.file));
    }
    for file in FILES {
        let source = path("tests/second/src").join(file);
        let read = fs::read_to_string(&source);
        let mut source = read.map_err(|e| format!("{}: {e}", source.display()))?;
        if let Some(fault) = fault.filter(|fault| fault.file == file) {
            source = fault.plant(&source)?;
        }
        source = source.replace("crate::", &format!("crate::{name}::"));
        match file {
            "lib.rs" => {
                let source = source.replace("pub mod generate;\n", "");
                write_file(folder, "mod.rs", &source)?;
            }
            _ => write_file(folder, file, &source)?,
        }
    }
    Ok(())
}

fn write_file(folder: &Path, name: &str, source: &str) -> Result<(), String> {
    let written = fs::create_dir_all(folder).and_then(|()| fs::write(folder.join(name), source));
    written.map_err(|e| format!("{}: {e}", folder.display()))
}

/// Builds the program. Sums that overflow wrap, as they do in a release.
fn build(folder: &Path) -> Result<PathBuf, String> {
    let program = folder.join("copies");
    let options = "--edition 2021 --crate-name copies -A warnings -C debug-assertions=off";
    let output = Command::new("rustc")
        .args(options.split(' '))
        .args(["-C", "strip=symbols"])
        .arg("-o")
        .arg(&program)
        .arg(folder.join("main.rs"))
        .output()
        .map_err(|e| format!("rustc: {e}"))?;
    match output.status.success() {
        true => Ok(program),
        false => Err(String::from_utf8_lossy(&output.stderr).into_owned()),
    }
}

/// Runs a copy on the corpus, and ends it where it takes too long.
fn run(program: &Path, index: usize) -> Result<Vec<String>, String> {
    let mut child = Command::new(program)
        .arg(index.to_string())
        .arg(path("crates/corpus/data/corpus.bin"))
        .arg(path("crates/corpus/data/pairs.bin"))
        .stdout(Stdio::piped())
        .stderr(Stdio::null())
        .spawn()
        .map_err(|e| format!("{}: {e}", program.display()))?;
    let (sender, ended) = mpsc::channel();
    let output = child.stdout.take();
    let reader = thread::spawn(move || {
        let mut lines = String::new();
        let read = output.map(|mut output| output.read_to_string(&mut lines));
        let _ = sender.send(());
        read.transpose().map(|_| lines)
    });
    if ended.recv_timeout(LIMIT).is_err() {
        child.kill().map_err(|e| e.to_string())?;
    }
    child.wait().map_err(|e| e.to_string())?;
    let lines = reader.join().map_err(|_| "the reader panics")?;
    let lines = lines.map_err(|e| e.to_string())?;
    Ok(lines.lines().map(str::to_string).collect())
}

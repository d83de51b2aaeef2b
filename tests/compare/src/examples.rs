//! Texts in a folder: `NAME.flogic`, and the expected answer in `NAME.answer`.
//! Jobs in folders, the texts of each behind its `base.flogic`.

use std::ffi::OsStr;
use std::fs;
use std::io;
use std::path::{Path, PathBuf};

/// A text with its expected answer, as it is printed.
#[derive(Clone, Debug)]
pub struct Example {
    pub name: String,
    pub text: Vec<u8>,
    pub expected: Vec<u8>,
}

/// A job with its base and their expected answer, as it is printed.
#[derive(Clone, Debug)]
pub struct JobExample {
    /// The name of the folder and that of the job.
    pub name: String,
    pub base_path: PathBuf,
    pub base: Vec<u8>,
    pub job: Vec<u8>,
    pub expected: Vec<u8>,
}

/// The name of a base in its folder.
const BASE: &str = "base.flogic";

/// The jobs of all the folders of a folder, by name. A folder without its base
/// is an error, and so is one without a job.
pub fn read_job_examples(folder: &Path) -> io::Result<Vec<JobExample>> {
    let mut folders = Vec::new();
    for entry in fs::read_dir(folder)? {
        let path = entry?.path();
        if path.is_dir() {
            folders.push(path);
        }
    }
    folders.sort();
    let mut jobs = Vec::new();
    for folder in folders {
        jobs.extend(read_jobs(&folder)?);
    }
    if jobs.is_empty() {
        return Err(io::Error::other(format!("{}: no jobs", folder.display())));
    }
    Ok(jobs)
}

/// The jobs of one base.
fn read_jobs(folder: &Path) -> io::Result<Vec<JobExample>> {
    let base_path = folder.join(BASE);
    let base = read(&base_path)?;
    let name = folder.file_name().unwrap_or(OsStr::new(""));
    let name = name.to_string_lossy().into_owned();
    let jobs = read_texts(folder, |path| !path.ends_with(BASE))?;
    let jobs = jobs.into_iter().map(|job| JobExample {
        name: format!("{name}/{}", job.name),
        base_path: base_path.clone(),
        base: base.clone(),
        job: job.text,
        expected: job.expected,
    });
    Ok(jobs.collect())
}

/// The examples of a folder, by name. A text without its answer is an error,
/// and so are an answer without its text and a folder with no text.
pub fn read_examples(folder: &Path) -> io::Result<Vec<Example>> {
    read_texts(folder, |_| true)
}

/// Those of the texts that are examples.
fn read_texts(folder: &Path, is_example: fn(&Path) -> bool) -> io::Result<Vec<Example>> {
    let mut texts = files(folder, "flogic")?;
    texts.retain(|path| is_example(path));
    for answer in files(folder, "answer")? {
        if !answer.with_extension("flogic").exists() {
            return Err(io::Error::other(format!("{}: no text", answer.display())));
        }
    }
    if texts.is_empty() {
        return Err(io::Error::other(format!("{}: no texts", folder.display())));
    }
    texts.iter().map(|path| read_example(path)).collect()
}

fn read_example(path: &Path) -> io::Result<Example> {
    let answer = path.with_extension("answer");
    let name = path.file_stem().unwrap_or(OsStr::new(""));
    Ok(Example {
        name: name.to_string_lossy().into_owned(),
        text: read(path)?,
        expected: read(&answer)?,
    })
}

fn read(path: &Path) -> io::Result<Vec<u8>> {
    fs::read(path).map_err(|error| io::Error::other(format!("{}: {error}", path.display())))
}

/// Writes a text and its expected answer.
pub fn write_example(folder: &Path, example: &Example) -> io::Result<PathBuf> {
    fs::create_dir_all(folder)?;
    let path = folder.join(&example.name).with_extension("flogic");
    fs::write(path.with_extension("answer"), &example.expected)?;
    fs::write(&path, &example.text)?;
    Ok(path)
}

/// Writes a folder with a base, a job and their expected answer.
pub fn write_job(folder: &Path, base: &[u8], job: &[u8], expected: &[u8]) -> io::Result<PathBuf> {
    let example = Example {
        name: "job".into(),
        text: job.into(),
        expected: expected.into(),
    };
    let path = write_example(folder, &example)?;
    fs::write(folder.join(BASE), base)?;
    Ok(path)
}

/// The files of a folder with an ending, sorted.
fn files(folder: &Path, ending: &str) -> io::Result<Vec<PathBuf>> {
    let mut found = Vec::new();
    for entry in fs::read_dir(folder)? {
        let path = entry?.path();
        if path.extension() == Some(OsStr::new(ending)) {
            found.push(path);
        }
    }
    found.sort();
    Ok(found)
}
